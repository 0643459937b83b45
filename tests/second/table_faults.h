/* Wrong tables, and wrong sessions with one: each is the second implementation of M-106 with one deliberate fault. A fault has a
 * number (its place here, from 1), a name in the code and a name to print. They exist only where SECOND_FAULTS is defined. */
#ifndef TABLE_FAULTS_H
#define TABLE_FAULTS_H

#define TABLE_FAULT_LIST(X) \
    /* A log judged as EV and AN records: "1 or 2 for a bad or cut log record" */ \
    X(LOG_ONE_BEFORE_TWO, "one byte left: 1 before 2") \
    X(LOG_TWO_BEFORE_ONE, "unknown mark with fewer than eight bytes left: 2 before 1") \
    X(LOG_CUT_IS_END, "cut record taken for the end of the log") \
    X(LOG_BAD_MARK_IS_END, "bad mark taken for the end of the log") \
    X(LOG_ANY_CASE, "mark in small letters known") \
    X(LOG_AN_AS_LONG_AS_EV, "AN of ten bytes") \
    X(LOG_TICK_LOW_FIRST, "ticks least significant byte first") \
    X(LOG_TICK_SIGNED, "ticks with a sign") \
    X(LOG_TICK_THREE_BYTES, "three bytes of the tick read") \
    /* "then 16 where ticks fall" */ \
    X(FALLS_NOT_REFUSED, "falling ticks taken") \
    X(FALLS_BEFORE_ONE, "falling tick before a bad or cut record: 16 before 1 and 2") \
    X(FALLS_BY_EQUAL, "equal ticks taken as falling") \
    X(FALLS_OF_EVENTS, "falling judged among EV alone") \
    X(FALLS_OF_ANSWERS, "falling judged among AN alone") \
    X(FALLS_BY_INSTANCE, "falling judged within an instance alone") \
    X(FALLS_BELOW_16, "falling judged among instances below 16 alone") \
    X(FALLS_BY_HOUR, "falling judged where the hour falls alone") \
    X(FALLS_LAST, "the last falling tick named") \
    X(FALLS_AT_BEFORE, "the record before the falling tick named") \
    X(FALLS_BEHIND, "the offset behind the falling tick named") \
    X(FALLS_IS_FIFTEEN, "15 for falling ticks") \
    /* A log for the table: 10 for a tick above 3,456,000 */ \
    X(FAR_NOT_REFUSED, "ticks above 3,456,000 taken, in no hour") \
    X(FAR_IN_LAST_HOUR, "ticks above 3,456,000 taken, in the last hour") \
    X(FAR_IN_NEXT_ROW, "ticks above 3,456,000 taken, in the next instance's row") \
    X(FAR_BEFORE_FALLS, "10 before 16") \
    X(FAR_AS_WALKED, "10 or 16, whichever record is first") \
    X(FAR_BEFORE_ONE, "10 before 1 and 2") \
    X(FAR_AT_LAST_TICK, "tick 3,456,000 refused") \
    X(FAR_ONE_LATE, "tick 3,456,001 taken, in no hour") \
    X(FAR_OF_EVENTS, "tick above 3,456,000 refused of EV alone") \
    X(FAR_BELOW_16, "tick above 3,456,000 refused of instances below 16 alone") \
    X(FAR_LAST, "the last tick above 3,456,000 named") \
    /* "each with its offset"; a refused log changes no entry */ \
    X(TALLY_REFUSED_END, "refused log: its length for the offset") \
    X(TALLY_REFUSED_0, "refused log: 0 for the offset") \
    X(TALLY_TAKEN_0, "log that is taken: 0 for its length") \
    X(TALLY_IN_RECORDS, "offset counted in records") \
    X(REFUSED_CLEARS, "refused log clears the table") \
    X(REFUSED_FILLS, "refused log fills the table with what is before the refused record") \
    X(REFUSED_FAR_FILLS, "log refused with 10 fills the table with what is before that") \
    /* "hour k holds ticks 72,000k + 1 to 72,000(k + 1)"; "the number of events" */ \
    X(HOUR_FROM_ITS_72000, "hour from tick 72,000 k on") \
    X(HOUR_OF_72001, "hours of 72,001 ticks") \
    X(HOUR_47_MISSING, "47 hours in the table") \
    X(TICK_0_COUNTED, "event of tick 0 counted in hour 0") \
    X(AN_COUNTED, "AN counted as an event, and ends a gap") \
    X(AN_COUNTED_ALONE, "AN counted as an event, and ends no gap") \
    X(EQUAL_TICKS_ONCE, "events of an instance at one tick counted once") \
    X(PRIORITY_5_LEFT_OUT, "event with priority 5, by a report alone, not counted") \
    X(EVENTS_OF_8_BITS, "number of events of 8 bits") \
    X(EVENTS_SO_FAR, "number of events up to the hour's end") \
    X(INSTANCE_16_WRAPS, "instance 16 and above in the row of its low four bits") \
    X(INSTANCE_16_IN_LAST, "instance 16 and above in the last row") \
    X(INSTANCE_15_MISSING, "15 rows in the table") \
    X(ENTRIES_BY_HOUR, "entry [hour * 16 + instance]") \
    /* "the longest gap ended in it by an event (counted from the event before, or from tick 0 for the first ...)" */ \
    X(GAP_FROM_HOUR_START, "gap not counted before the hour's start") \
    X(GAP_WITHIN_HOUR, "gap that begins in an earlier hour left out") \
    X(GAP_FROM_ANY_EVENT, "gap from the event before of any instance") \
    X(GAP_FROM_ANSWER, "gap from an AN of the instance") \
    X(GAP_FROM_HOUR_END, "gap from the end of the hour of the event before") \
    X(FIRST_GAP_MISSING, "no gap before an instance's first event") \
    X(FIRST_GAP_FROM_FIRST_RECORD, "first gap from the log's first record") \
    X(FIRST_GAP_FROM_TICK_1, "first gap from tick 1") \
    X(FIRST_GAP_FROM_HOUR_START, "first gap from the hour's start") \
    X(GAP_SUM, "sum of the gaps") \
    X(GAP_LAST, "the last gap of the hour") \
    X(GAP_FIRST, "the first gap of the hour") \
    X(GAP_SHORTEST, "the shortest gap of the hour above 0") \
    X(GAP_LONGEST_SO_FAR, "the longest gap up to the hour's end") \
    X(GAP_TO_HOUR_END, "gap also from the hour's last event to its end") \
    X(GAP_TO_LOG_END, "gap also from the last event to the log's last record") \
    X(GAP_IN_HOUR_WITHOUT_EVENTS, "hour without events has a gap of 72,000") \
    X(GAP_WHERE_IT_BEGINS, "gap in the hour of the event before") \
    X(GAP_TICKS_BETWEEN, "gap without the tick that ends it") \
    X(GAP_OF_16_BITS, "gap of 16 bits") \
    X(GAP_AT_MOST_AN_HOUR, "gap of 72,000 at most") \
    /* 768 entries; a slice that is shorter or longer */ \
    X(STALE_KEPT, "entries of hours without events keep what they held") \
    X(STALE_ADDED, "events added to what the entries held") \
    X(STALE_GAP_LONGER, "gap left where the entry held a longer one") \
    X(STALE_ROWS, "rows of instances without events keep what they held") \
    X(LAST_ENTRY_KEPT, "the last of the 768 entries keeps what it held") \
    X(LONGER_CLEARED, "entries behind the 768 cleared") \
    X(ENTRY_769_TOUCHED, "entry 768, the first behind the table, set to 0") \
    X(SHORT_GETS_NOTHING, "slice of fewer than 768 entries gets nothing") \
    X(SHORT_GETS_ROWS, "slice of fewer than 768 entries gets whole rows alone") \
    X(SHORT_CUTS_BOTH, "both slices filled as far as the shorter one goes") \
    X(SLICES_SWAPPED, "events in gaps, and gaps in events") \
    /* "the call for one hour gives 10 for hour 48 or above, then 1 or 2 ..., then 16 ..., each with the empty end of the log" */ \
    X(ASKED_48_TAKEN, "hour 48 asked for: taken") \
    X(ASKED_47_REFUSED, "hour 47 asked for: refused") \
    X(ASKED_WRAPS, "hour 48 and above asked for: from 0 again") \
    X(ASKED_OF_32_BITS, "hour asked for of 32 bits") \
    X(ASKED_SIGNED, "hour asked for with a sign, below 0 taken as 0") \
    X(ASKED_AFTER_LOG, "hour 48 or above asked for: after 1, 2 and 16") \
    X(ASKED_AFTER_RECORDS, "hour 48 or above asked for: after 1 and 2") \
    X(ASKED_HAS_LATER, "hour 48 or above asked for: before the first record beyond 3,456,000") \
    X(PART_REFUSED_START, "refused: the empty start of the log") \
    X(PART_REFUSED_THERE, "refused: the empty place of the refused record") \
    X(PART_REFUSED_REST, "refused: the rest from the refused record on") \
    X(PART_FAR_REFUSED, "one hour asked for: 10 for a record beyond 3,456,000") \
    X(PART_JUDGED_TO_HOUR, "one hour asked for: log judged up to the first later record alone") \
    X(PART_FALLS_TAKEN, "one hour asked for: falling ticks taken") \
    /* "the part of the log that holds one hour; an empty one lies before the first later record, else at the end" */ \
    X(PART_FROM_ITS_72000, "part from tick 72,000 k on") \
    X(PART_WITHOUT_LAST_TICK, "part without the last tick of the hour") \
    X(PART_WITH_NEXT_TICK, "part with the first tick of the next hour") \
    X(PART_WITH_TICK_0, "part of hour 0 with tick 0") \
    X(PART_WITH_FAR, "part of hour 47 with what is beyond 3,456,000") \
    X(PART_OF_EVENTS, "part from the first to the last EV, without AN about them") \
    X(PART_BELOW_16, "part from the first to the last record of an instance below 16") \
    X(PART_TO_END, "part up to the log's end") \
    X(PART_FROM_START, "part from the log's start") \
    X(PART_FIRST_RECORD, "part of the hour's first record alone") \
    X(PART_LAST_RECORD_MISSING, "part without its last record") \
    X(PART_IN_RECORDS, "length of the part in records") \
    X(PART_END_FOR_LEN, "end of the part for its length") \
    X(EMPTY_AT_START, "empty part at the log's start") \
    X(EMPTY_AT_END, "empty part at the log's end, a later record or not") \
    X(EMPTY_BEHIND_LATER, "empty part behind the first later record") \
    X(EMPTY_BEFORE_LAST, "empty part before the last record, where that is later") \
    X(EMPTY_BEFORE_EARLIER, "empty part before the last earlier record") \
    X(EMPTY_BEFORE_LATER_EVENT, "empty part before the first later EV") \
    X(EMPTY_NOT_BEFORE_FAR, "empty part at the log's end where what is later is in no hour") \
    X(EMPTY_IS_REST, "empty part before a later record has the rest of the log") \
    /* A session: "number 10, after 8 and before 9, for a tick beyond 48 hours when the table is in use, the whole TK refused" */ \
    X(TEN_NEVER, "no TK refused with 10") \
    X(TEN_WITHOUT_TABLE, "10 without the table in use") \
    X(TEN_AT_THE_LAST, "TK that ends at tick 3,456,000 refused") \
    X(TEN_ONE_LATE, "TK that ends at tick 3,456,001 taken") \
    X(TEN_AT_NEXT_TK, "TK that passes tick 3,456,000 taken, the next refused") \
    X(TEN_BY_EVENTS, "TK beyond the table taken where nothing is sent there") \
    X(TEN_AFTER_NINE, "10 after 9") \
    X(TEN_BEFORE_SEVEN, "10 before 7 at the last tick") \
    X(TEN_INSIDE_TK, "TK carried out up to tick 3,456,000 before 10") \
    X(TEN_SAYS_TICKS, "10 says how many ticks there were up to 3,456,000") \
    X(TEN_IS_EIGHT, "8 in place of 10") \
    X(TEN_PASSED_OVER, "TK beyond the table passed over") \
    X(TEN_EMPTIES_LOG, "10 takes back what was logged") \
    X(TEN_FOR_ANSWER, "answer at the last tick refused with 10") \
    /* The table is filled from what was logged, whatever the number */ \
    X(FILLED_WHEN_TAKEN, "table filled where the number is 0 alone") \
    X(FILLED_NOT_BY_NINE, "table not filled where the number is 9") \
    X(FILLED_NOT_BY_TEN, "table not filled where the number is 10") \
    X(FILLED_NOT_WHEN_EMPTY, "table not filled where nothing was logged") \
    X(FILLED_FROM_OUTPUT, "table filled from the whole output") \
    X(FILLED_DECLARED, "rows of declared instances filled alone") \
    X(FILLED_WITHOUT_LAST, "table without the last record of the log")

enum {
    TABLE_NO_FAULT,
#define X(name, text) name,
    TABLE_FAULT_LIST(X)
#undef X
    TABLE_FAULTS_END
};

#endif
