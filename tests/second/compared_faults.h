/* Wrong comparisons: each is the second implementation of M-102 with one deliberate fault. A fault has a number (its
 * place here, from 1), a name in the code and a name to print. They exist only where SECOND_FAULTS is defined. */
#ifndef COMPARED_FAULTS_H
#define COMPARED_FAULTS_H

#define COMPARED_FAULT_LIST(X) \
    /* "It checks both as EV and AN records" */ \
    X(ONE_BEFORE_TWO, "one byte left: 1 before 2") \
    X(TWO_BEFORE_ONE, "unknown mark with fewer than eight bytes left: 2 before 1") \
    X(NUMBERS_SWAPPED, "bad mark 2, cut record 1") \
    X(FIRST_LETTER_ALONE, "mark known by its first letter") \
    X(SECOND_LETTER_ALONE, "mark known by its second letter") \
    X(ANY_CASE, "mark in small letters known") \
    X(EITHER_ORDER, "mark with its letters in the other order known") \
    X(AN_AS_LONG_AS_EV, "AN of ten bytes") \
    X(FALLING_REFUSED, "record whose tick is below that of the one before refused") \
    X(INSTANCE_16_REFUSED, "record of an instance above 15 refused") \
    X(PRIORITY_REFUSED, "EV with a priority outside 2 to 5 refused") \
    /* "both logs are judged whole before the walk, the device's first" */ \
    X(MODEL_FIRST, "the model's log judged first") \
    X(LOWER_OFFSET_FIRST, "both logs refused: the lower offset named") \
    X(DEVICE_ALONE_JUDGED, "refused record of the model taken for the end of its log") \
    X(MODEL_ALONE_JUDGED, "refused record of the device taken for the end of its log") \
    X(CUT_IS_END, "cut record taken for the end of the log") \
    X(LAST_BYTE_IS_END, "one byte left taken for the end of the log") \
    X(BAD_MARK_IS_END, "bad mark taken for the end of the log") \
    X(JUDGED_AS_WALKED, "judged as they are walked: refusal behind the first difference not seen") \
    X(JUDGED_TO_SHORTER_END, "refusal behind the end of the shorter log not seen") \
    /* "Refusals: bad mark 1, cut record 2, each with its offset"; "the empty end of the device's log" */ \
    X(REFUSED_NOT_NAMED, "refusal of the model's log named as the device's") \
    X(REFUSED_OFFSET_IN_BOTH, "refusal: its offset stands for the other log too") \
    X(REFUSED_OFFSET_SWAPPED, "refusal: its offset stands for the other log") \
    X(REFUSED_OTHER_END, "refusal: the other log's length in place of 0") \
    X(REFUSED_OFFSET_0, "refusal without its offset") \
    X(REFUSED_BEHIND_MARK, "bad mark: offset of the byte behind it") \
    X(REFUSED_DIFFERENCE, "refusal names a differing pair before it, too") \
    X(REFUSED_ALL, "refusal says that the records before it were all") \
    X(REFUSED_REST, "refusal hands back its log from the refused record on") \
    X(REFUSED_MODEL_END, "refusal of the model's log hands back the empty end of that") \
    X(REFUSED_DEVICE_REST, "refusal of the model's log hands back the device's log whole") \
    X(REFUSED_EMPTY_START, "refusal hands back the empty start of the device's log") \
    /* "walks them together and stops at the first pair that differs, naming both offsets" */ \
    X(LAST_DIFFERENCE, "the last pair that differs") \
    X(INSERTED_PASSED_OVER, "record that the model has more passed over") \
    X(OFFSETS_IN_RECORDS, "offsets counted in records") \
    X(OFFSET_OF_FIELD, "offsets of the differing field") \
    X(OFFSET_BEHIND, "offsets behind the differing record") \
    /* "the first differing field" */ \
    X(MARK_NOT_COMPARED, "mark not compared") \
    X(TICK_NOT_COMPARED, "tick not compared") \
    X(INSTANCE_NOT_COMPARED, "instance not compared") \
    X(PRIORITY_NOT_COMPARED, "priority not compared") \
    X(INFORMATION_NOT_COMPARED, "information not compared") \
    X(ANSWER_NOT_COMPARED, "answer not compared") \
    X(INSTANCE_OF_16, "four bits of the instance compared") \
    X(PRIORITY_OF_8, "three bits of the priority compared") \
    X(INFORMATION_TEN_BITS, "ten bits of the information compared") \
    X(INFORMATION_TOP_BYTE, "first byte of the information compared") \
    X(TICK_BEFORE_MARK, "tick before mark") \
    X(INSTANCE_BEFORE_MARK, "instance before mark") \
    X(INSTANCE_BEFORE_TICK, "instance before tick") \
    X(PRIORITY_BEFORE_INSTANCE, "priority before instance") \
    X(ANSWER_BEFORE_INSTANCE, "answer before instance") \
    X(INFORMATION_BEFORE_PRIORITY, "information before priority") \
    X(LAST_FIELD, "the last differing field") \
    X(ANSWER_AS_PRIORITY, "answer named as priority") \
    X(ANSWER_AS_INFORMATION, "answer named as information") \
    /* "the tick difference as device minus model, below zero when the device was early" */ \
    X(MODEL_MINUS_DEVICE, "model minus device") \
    X(DIFFERENCE_WRAPS, "difference of 32 bits with a sign") \
    X(DIFFERENCE_UNSIGNED, "difference of 32 bits without a sign") \
    X(DIFFERENCE_WITHOUT_SIGN, "difference never below zero") \
    X(DIFFERENCE_LIMITED, "difference held within 32 bits with a sign") \
    X(TICK_SIGNED, "ticks with a sign") \
    X(TICK_LOW_FIRST, "ticks least significant byte first") \
    X(NO_DIFFERENCE_BY_MARK, "no difference where the mark differs") \
    /* "the untouched rest ...: the device's from the differing record, else that of the longer log" */ \
    X(REST_BEHIND, "rest behind the differing record") \
    X(REST_OF_MODEL, "differing pair: the model's rest") \
    X(REST_OF_LONGER, "differing pair: the rest of the longer log") \
    X(REST_OF_EARLIER, "differing pair: the rest of the log with the lower tick") \
    X(REST_WHOLE, "differing pair: the device's log whole") \
    X(REST_RECORD_ALONE, "differing pair: the record alone") \
    X(START_REST_OF_SHORTER, "no pair differs: the shorter log's empty rest") \
    X(START_REST_OF_DEVICE, "no pair differs: the device's rest, longer or not") \
    X(START_REST_WHOLE, "no pair differs: the longer log whole") \
    X(START_REST_FROM_LAST, "no pair differs: rest from the last equal record on") \
    X(EQUAL_REST_OF_MODEL, "equal logs: the empty end of the model's") \
    X(EQUAL_REST_START, "equal logs: the empty start of the device's") \
    X(EQUAL_REST_WHOLE, "equal logs: the device's whole") \
    /* "whether records equal up to there were all there were; with no differing pair the tick difference is 0" */ \
    X(START_IS_ALL, "log that is a start of the other says all") \
    X(DEVICE_AT_END_IS_ALL, "all where the device's log is at its end") \
    X(MODEL_AT_END_IS_ALL, "all where the model's log is at its end") \
    X(LAST_PAIR_IS_ALL, "all where the differing pair is the last of both logs") \
    X(EMPTY_NOT_ALL, "not all where both logs are empty") \
    X(NEVER_ALL, "never all") \
    X(START_IS_MARK, "log that ends before the other: mark differs") \
    X(START_DIFFERENCE, "log that ends before the other: tick of the next record as the difference") \
    X(START_OFFSETS_ENDS, "log that ends before the other: each log's own end as its offset") \
    X(START_OFFSETS_0, "no pair differs: offsets 0")

enum {
    COMPARED_NO_FAULT,
#define X(name, text) name,
    COMPARED_FAULT_LIST(X)
#undef X
    COMPARED_FAULTS_END
};

#endif
