/* Wrong models: each is the second implementation with one deliberate fault. A fault has a number (its place here, from 1), a name
 * in the code and a name to print. They exist only where SECOND_FAULTS is defined. */
#ifndef SECOND_FAULTS_H
#define SECOND_FAULTS_H

#define SECOND_FAULT_LIST(X) \
    /* Findings from earlier models */ \
    X(BAND_ON_PADDED, "IN: hysteresis taken on the padded inputValue") \
    X(BAND_CENTRED, "band centred on v") \
    X(BAND_MOVED_INSIDE, "band moved by a report inside it") \
    X(DEAD_TIME_LATE, "dead time ends one tick late") \
    X(DEAD_TIME_FORGETS, "occupancy change during dead time forgotten") \
    X(DTR0_PER_INSTANCE, "DTR0 kept per instance, loaded for the first alone") \
    /* Session and log records, Numbers */ \
    X(ONE_BEFORE_TWO, "cut mark: 1 before 2") \
    X(TWO_BEFORE_ONE, "unknown mark with fewer than four bytes left: 2 before 1") \
    X(THREE_BEFORE_TWO, "cut IN after a record of another kind: 3 before 2") \
    X(FOUR_BEFORE_THREE, "late or skipped IN that is not modelled: 4 before 3") \
    X(SIX_BEFORE_FIVE, "undeclared SA with status above 2: 6 before 5") \
    X(LATE_IN_TAKEN, "IN after a record of another kind taken") \
    X(FRAME_NOT_ANOTHER_KIND, "FR not counted as a record of another kind than IN") \
    X(FIFTEEN_INSTANCES, "IN number 15 refused") \
    X(OCCUPANCY_RESOLUTION_1, "occupancy with resolution 1 taken") \
    X(RESOLUTION_24_REFUSED, "light with resolution 24 refused") \
    X(MASK_MEASURED, "light value 2^resolution - 1 taken") \
    X(OCCUPANCY_NOT_READY, "occupancy status 1 allowed as light's: taken before a valid sample, 13 after one") \
    X(FAILURE_WITH_VALUE, "value other than 0 taken with status 2") \
    X(COUNT_0_TAKEN, "TK count 0 taken") \
    X(LAST_TICK_REFUSED, "tick number 4,294,967,295 refused") \
    X(LAST_TICK_PASSED, "tick number starts again at 0 after the last") \
    X(LIMIT_INSIDE_TK, "TK past the last tick carried out up to it") \
    X(FULL_LEAVES_EVENTS, "tick without room leaves its first events") \
    X(FULL_SCRIBBLES, "tick without room writes its first events past the log") \
    X(FULL_KEEPS_STATE, "tick without room keeps its state") \
    X(FULL_TICKS_OFF_BY_ONE, "ticks carried out count the one without room") \
    X(FULL_UNDOES_TK, "no room inside a TK undoes the whole TK") \
    X(FULL_BY_INSTANCES, "room wanted for an event of every instance") \
    X(FULL_BYTE_EARLY, "the last byte of the output not used") \
    X(REFUSED_8D_USES_UP, "8D without room uses up a latched byte") \
    X(FIRST_TICK_ALONE, "only the first tick of a TK worked, the others only counted") \
    X(SAMPLE_AT_ONCE, "sample taken at once, not at the next tick") \
    /* No going back to not ready (02, M-110) */ \
    X(NOT_READY_TAKEN, "status 1 after a valid sample taken, as before M-110") \
    X(NOT_READY_REFUSED, "status 1 before any valid sample refused with 13 too") \
    X(NOT_READY_IS_SIX, "status 1 after a valid sample refused with 6") \
    X(THIRTEEN_BEFORE_SIX, "light status 1 with a value other than 0, after a valid sample: 13 before 6") \
    X(THIRTEEN_FOR_OCCUPANCY, "occupancy status 1 after a valid sample: 13 before 6") \
    X(THIRTEEN_BEFORE_FIVE, "undeclared SA with status 1, after a valid sample of any instance: 13 before 5") \
    X(FAILURE_FORGETS, "failure forgets that there was a valid sample") \
    X(FAILURE_COUNTS, "failure counts as a valid sample") \
    X(FAILURE_REFUSED, "status 2 after a valid sample refused with 13 too") \
    X(NOT_READY_COUNTS, "status 1 counts as a valid sample") \
    X(COUNTS_BY_TICK, "valid sample counts only once a tick has taken it") \
    X(COUNTS_BY_STATUS, "status 1 refused with 13 only while the last tick's status is 0") \
    X(COUNTS_BY_BAND, "status 1 refused with 13 only while there is a band") \
    X(REFUSED_COUNTS, "valid sample refused with 6 counts") \
    X(COUNTS_FOR_FIRST, "valid sample of any instance counts for instance 0, and for no other") \
    X(COUNTS_FOR_ALL, "valid sample of any instance counts for all") \
    X(ZERO_NOT_COUNTED, "valid sample of value 0 does not count") \
    X(DISABLED_NOT_COUNTED, "valid sample while disabled does not count") \
    X(DISABLING_FORGETS, "disabling forgets that there was a valid sample") \
    X(ENABLING_FORGETS, "enabling forgets that there was a valid sample") \
    X(CALL_FORGETS, "reading that goes on from an earlier one's state forgets that there was a valid sample") \
    X(THIRTEEN_HELD, "sample refused with 13 held all the same") \
    X(THIRTEEN_FORGETS, "sample refused with 13 forgets that there was a valid one") \
    X(THIRTEEN_DISCARDS_BAND, "sample refused with 13 discards the band") \
    /* Sensors built to the 2017 text (02, M-107): the mark */ \
    X(LO_UNKNOWN, "mark LO unknown") \
    X(LO_IS_IN, "LO taken for IN: as type 3 too, and by the measured value") \
    X(LO_CUT_IS_ONE, "cut LO: 1, not 2") \
    X(LO_THREE_BEFORE_TWO, "cut LO after a record of another kind: 3 before 2") \
    X(LO_FOUR_BEFORE_THREE, "late or skipped LO that is not modelled: 4 before 3") \
    X(LATE_LO_TAKEN, "LO after a record of another kind taken") \
    X(LO_AFTER_IN_LATE, "LO after IN refused with 3") \
    X(IN_AFTER_LO_LATE, "IN after LO refused with 3") \
    X(LO_NUMBERED_APART, "LO numbered apart from IN") \
    X(LO_16_IS_THREE, "LO number 16 refused with 3 after 16 others") \
    X(LO_OCCUPANCY_TAKEN, "LO of type 3 taken, as IN's") \
    X(LO_TYPE_3_IS_LIGHT, "LO of type 3 taken for light") \
    X(LO_TYPE_IGNORED, "LO of any type taken for light") \
    X(LO_RESOLUTION_0_TAKEN, "LO with resolution 0 taken, as 1") \
    X(LO_RESOLUTION_25_TAKEN, "LO with resolution 25 taken, as 24") \
    X(LO_FOR_ALL, "one LO makes all light instances go by the padded number") \
    X(FIRST_MARK_FOR_ALL, "the first mark decides on which number all bands are") \
    X(LAST_MARK_FOR_ALL, "the last mark decides on which number all bands are") \
    X(CALL_FORGETS_LO, "reading that goes on from an earlier one's state forgets which mark declared an instance") \
    /* Sensors built to the 2017 text (02, M-107): the band */ \
    X(LO_ON_MEASURED, "LO: band, width and comparison on the measured value") \
    X(LO_COMPARED_ON_MEASURED, "LO: the measured value compared with a band on the padded number") \
    X(LO_WIDTH_ON_MEASURED, "LO: width of the measured value, band and comparison on the padded number") \
    X(LO_ENDS_ON_MEASURED, "LO: ends of the band set from the measured value, width and comparison on the padded number") \
    X(LO_ZERO_PADDED, "LO: band on the measured value padded with zeros") \
    X(LO_ONE_PADDED, "LO: band on the measured value padded with ones") \
    X(LO_THREE_BYTES, "LO: band on the measured value padded to three bytes at every resolution") \
    X(LO_TOP_BYTE, "LO: band on the top byte of inputValue") \
    X(LO_LOW_TWO_BYTES, "LO: band on the low two bytes of inputValue") \
    X(LO_ON_INFORMATION, "LO: band on the ten bits of the event's information") \
    X(LO_MIN_IN_MEASURED_STEPS, "LO: hysteresisMin counted in steps of the measured value") \
    X(LO_UNTIL_FAILED, "LO: band on the measured value after a failure") \
    /* Sensors built to the 2017 text (02, M-107): "all else is common" */ \
    X(LO_INFORMATION_OF_PADDED, "LO: information from inputValue, its bits repeated") \
    X(LO_MIN_BY_PADDED_WIDTH, "LO: hysteresisMin at start by the bits of inputValue") \
    X(LO_SAMPLE_OF_PADDED_WIDTH, "LO: values up to the bits of inputValue taken") \
    X(LO_ANSWERS_PADDED_WIDTH, "LO: 81 answers the bits of inputValue") \
    X(LO_ANSWERS_OTHER_TYPE, "LO: 80 answers 3") \
    X(LO_MASK_MISSING, "LO: MASK missing, the last value shown") \
    X(LO_NOT_READY_TAKEN, "LO: status 1 after a valid sample taken, as before M-110") \
    X(LO_DEAD_TIME_0_RUNS_ON, "LO: deadtime set to 0 does not end the running dead time, as before M-103") \
    X(LO_NO_BAND_IS_0, "LO: no band is a band from 0 to 0") \
    X(LO_BAND_KEPT_FAILED, "LO: status 2 keeps the band") \
    /* Movement-based occupancy (02, M-100): the mark */ \
    X(IM_UNKNOWN, "mark IM unknown") \
    X(IM_IS_IN, "IM taken for IN: presence, and light too") \
    X(IM_CUT_IS_ONE, "cut IM: 1, not 2") \
    X(IM_THREE_BEFORE_TWO, "cut IM after a record of another kind: 3 before 2") \
    X(IM_FOUR_BEFORE_THREE, "late or skipped IM that is not modelled: 4 before 3") \
    X(LATE_IM_TAKEN, "IM after a record of another kind taken") \
    X(IM_ANOTHER_KIND, "IN or LO after IM refused with 3: IM a record of another kind") \
    X(IM_AFTER_IN_LATE, "IM after IN refused with 3") \
    X(IM_AFTER_LO_LATE, "IM after LO refused with 3") \
    X(IM_NUMBERED_APART, "IM numbered apart from IN and LO") \
    X(IM_16_IS_THREE, "IM number 16 refused with 3 after 16 others") \
    X(IM_LIGHT_TAKEN, "IM of type 4 taken, as IN's") \
    X(IM_TYPE_4_IS_3, "IM of type 4 taken for type 3") \
    X(IM_TYPE_IGNORED, "IM of any type taken for type 3") \
    X(IM_RESOLUTION_1, "IM with resolution 1 taken") \
    X(IM_RESOLUTION_IGNORED, "IM with any resolution taken, as 2") \
    X(IM_FOR_ALL, "one IM makes all occupancy instances movement-based") \
    X(CALL_FORGETS_IM, "reading that goes on from an earlier one's state forgets that IM declared an instance") \
    X(CALL_FORGETS_HOLD, "reading that goes on from an earlier one's state forgets a running hold") \
    X(CALL_FORGETS_CATCHING, "reading that goes on from an earlier one's state forgets catching") \
    /* Movement-based occupancy (02, M-100): samples, at the start */ \
    X(IM_BIT_1_TAKEN, "bit 1 of a movement sample taken, and not looked at") \
    X(IM_BIT_1_HELD, "movement sample that is refused held all the same") \
    X(IM_NOT_READY_TAKEN, "IM: status 1 allowed as light's: taken before a valid sample, 13 after one") \
    X(IM_STARTS_NOT_READY, "IM: not ready before its first sample") \
    X(IM_STARTS_OCCUPIED, "IM: occupied at the start, until hold expires") \
    X(IM_FILTER_WITH_MOVEMENT, "IM: filter bit 3 set at the start") \
    X(HOLD_STARTS_AS_2, "hold 2 at the start") \
    X(HOLD_STARTS_AS_9, "hold 9 at the start") \
    X(CATCHING_AT_START, "catching at the start") \
    /* Movement-based occupancy (02, M-100): values and triggers */ \
    X(MOVES_TO_55, "movement from vacant goes to 0x55") \
    X(MOVES_FOR_A_SECOND, "0xFF for 20 ticks at least") \
    X(STILL_IS_EMPTY, "no movement goes to 0x00 at once") \
    X(OCCUPIED_AGAIN, "movement from 0xAA gives Occupied too") \
    X(OCCUPIED_ALONE, "movement from vacant gives Occupied alone") \
    X(MOVEMENT_ALONE, "movement from vacant gives Movement alone") \
    X(MOVEMENT_AGAIN, "each tick with movement gives Movement") \
    X(STILL_UNSAID, "no movement gives no trigger") \
    X(VACANT_AT_STILL, "no movement gives Vacant too") \
    X(VACANT_WITH_NO_MOVEMENT, "hold expiry gives No movement too") \
    X(VACANT_UNSAID, "hold expiry gives no Vacant") \
    X(VACANT_BEATS_MOVEMENT, "hold expiry at a tick with movement goes to 0x00") \
    X(VACANT_WITH_MOVEMENT, "hold expiry at a tick with movement gives Vacant too") \
    X(OCCUPIED_AT_EXPIRY, "hold expiry at a tick with movement gives Occupied too") \
    X(IM_DISABLED_NOT_TAKEN, "IM: value stands still while disabled") \
    X(FAILURE_IS_STILL, "failure counts as no movement") \
    X(BIT_3_MISSING, "information bit 3 missing") \
    X(BIT_3_NOT_IN_REPORTS, "information bit 3 missing in reports") \
    X(BIT_3_OCCUPIED_ALONE, "information bit 3 missing while vacant") \
    X(BIT_3_FOR_PRESENCE, "information bit 3 for presence too") \
    /* Movement-based occupancy (02, M-100): hold */ \
    X(HOLD_SHORT, "hold short by one tick") \
    X(HOLD_LONG, "hold long by one tick") \
    X(HOLD_0_AT_ONCE, "hold 0 expires at the next tick") \
    X(HOLD_0_IS_UNIT, "hold 0 is 200 ticks") \
    X(HOLD_0_NEVER, "hold 0 never expires") \
    X(HOLD_0_REFUSED, "hold 0 not taken") \
    X(HOLD_254_REFUSED, "hold 254 not taken") \
    X(HOLD_255_TAKEN, "hold 255 taken") \
    X(HOLD_UNIT_20, "hold unit 20 ticks") \
    X(HOLD_UNIT_100, "hold unit 100 ticks") \
    X(HOLD_IN_15_BITS, "hold time kept in 15 bits") \
    X(HOLD_90_SHORT, "hold 90 answered, but 9 run") \
    X(HOLD_BY_DEAD_TIME, "hold time never below dead time") \
    X(HOLD_BY_REPORT, "hold time never below report time") \
    X(HOLD_SET_AT_ONCE, "new hold starts a running one again") \
    X(HOLD_SET_CUTS, "new hold cuts a running one") \
    X(HOLD_SET_0_ENDS, "hold set to 0 ends a running one at the next tick") \
    X(HOLD_REFUSED_RUNNING, "new hold not taken while one runs") \
    X(HOLD_FOR_ALL, "new hold for all movement-based instances") \
    X(HOLD_STARTS_EACH_STILL, "hold starts again at each tick without movement") \
    X(HOLD_STARTS_BY_SA, "hold starts again by each SA") \
    X(HOLD_STARTS_BY_MOVEMENT, "hold starts at each tick with movement, not at the first one without") \
    X(HOLD_STARTS_ENTERING, "hold starts with the first tick of movement, not with the first one without") \
    X(EVENT_STARTS_HOLD, "each event starts a running hold again") \
    X(HOLD_NOT_RESTARTED, "hold runs on through movement, and does not start again") \
    X(HOLD_RESUMED, "hold stands still during movement, and then goes on") \
    X(HOLD_WANTS_FILTER, "hold not started with filter bit 4 clear") \
    X(HOLD_WANTS_ENABLED, "hold not started while disabled") \
    X(HOLD_FROZEN_FAILED, "hold stands still in a failure") \
    X(HOLD_FROZEN_DISABLED, "hold stands still while disabled") \
    X(HOLD_FROZEN_DEAD_TIME, "hold stands still in dead time") \
    X(EXPIRY_WAITS_DISABLED, "hold expiry waits while disabled") \
    X(EXPIRY_WAITS_DEAD_TIME, "hold expiry waits in dead time") \
    X(EXPIRY_WANTS_FILTER, "hold expiry waits for filter bit 1") \
    X(EMPTY_IN_FAILURE, "hold expiry in a failure goes to 0x00 at once, without Vacant") \
    X(EXPIRY_LOST_IN_FAILURE, "hold expiry in a failure lost: 0xAA stays") \
    X(FAILED_EXPIRY_BEATS_MOVEMENT, "hold that expired in a failure goes to 0x00 behind it with movement too") \
    X(FAILED_EXPIRY_UNSAID, "hold that expired in a failure goes to 0x00 behind it without Vacant") \
    X(FAILURE_STOPS_HOLD, "failure stops a running hold: 0xAA stays") \
    X(FAILURE_STARTS_HOLD, "failure starts a running hold again") \
    X(FAILURE_ENDS_HOLD, "failure ends a running hold") \
    X(DISABLING_STOPS_HOLD, "disabling stops a running hold: 0xAA stays") \
    X(ENABLING_STARTS_HOLD, "enabling starts a running hold again") \
    /* Movement-based occupancy (02, M-100): cancel hold */ \
    X(CANCEL_IGNORED, "cancel hold does nothing") \
    X(CANCEL_IGNORED_DISABLED, "cancel hold does nothing while disabled") \
    X(CANCEL_IGNORED_FAILED, "cancel hold does nothing in a failure") \
    X(CANCEL_AT_ONCE, "cancel hold goes to 0x00 before the next tick") \
    X(CANCEL_TICK_LATE, "cancelled hold expires a tick late") \
    X(CANCEL_STOPS, "cancel hold stops the hold: 0xAA stays") \
    X(CANCEL_RESTARTS, "cancel hold starts the hold again") \
    X(CANCEL_WITHOUT_VACANT, "cancelled hold goes to 0x00 without Vacant") \
    X(CANCEL_BEATS_MOVEMENT, "cancelled hold at a tick with movement goes to 0x00") \
    X(CANCEL_FOR_NEXT_HOLD, "cancel hold with none running lets the next one expire at once") \
    X(CANCEL_SENDS_VACANT, "cancel hold while vacant gives Vacant") \
    X(CANCEL_ENDS_MOVING, "cancel hold in 0xFF goes to 0x00") \
    X(CANCEL_FOR_ALL, "cancel hold for all movement-based instances") \
    X(FAILURE_UNDOES_CANCEL, "failure at the next tick undoes cancel hold") \
    /* Movement-based occupancy (02, M-100): catching */ \
    X(CATCH_IGNORED, "catch movement does nothing") \
    X(CATCH_IGNORED_DISABLED, "catch movement does nothing while disabled") \
    X(CATCH_IGNORED_MOVING, "catch movement does nothing in 0xFF") \
    X(CATCH_SETS_WITH_BIT_3, "catch movement sets catching with filter bit 3 set") \
    X(CATCH_LEAVES_WITH_BIT_3, "catch movement with filter bit 3 set leaves catching") \
    X(CATCH_TOGGLES, "second catch movement ends catching") \
    X(CATCH_SETS_FILTER, "catch movement sets filter bit 3") \
    X(CATCH_CLEARS_WAITING, "catch movement clears the waiting triggers") \
    X(CATCH_TRIGGERS_MOVING, "catch movement in 0xFF gives Movement at once") \
    X(CATCH_FOR_ALL, "catch movement for all movement-based instances") \
    X(CATCHES_FROM_STILL_ALONE, "catching lets Movement pass from 0xAA alone") \
    X(CATCHES_FROM_VACANT_ALONE, "catching lets Movement pass from vacant alone") \
    X(CATCHES_NO_MOVEMENT, "catching lets No movement pass too") \
    X(CATCHING_STAYS, "catching not ended by the event") \
    X(FILTERED_KEEPS_CATCHING, "catching not ended by an event with filter bit 3 set") \
    X(STILL_KEEPS_CATCHING, "catching not ended by an event that waited until the movement was over") \
    X(ANY_EVENT_ENDS_CATCHING, "catching ended by any event") \
    X(REPORT_ENDS_CATCHING, "catching ended by a report") \
    X(CATCHING_ENDS_WHEN_CAUGHT, "catching ended when Movement comes, not when it is sent") \
    X(DISABLED_MOVEMENT_ENDS_CATCHING, "catching ended by Movement in a disabled time") \
    X(DISABLED_CAUGHT_WAITS, "Movement caught in a disabled time waits") \
    X(DEAD_TIME_FORGETS_CAUGHT, "Movement in dead time not caught") \
    X(FILTER_KEEPS_CAUGHT, "new filter without bit 3 keeps Movement that was caught") \
    X(FILTER_DROP_ENDS_CATCHING, "catching ended by a new filter that drops Movement") \
    X(FILTER_BIT_3_ENDS_CATCHING, "catching ended by a new filter with bit 3") \
    X(FILTER_ENDS_CATCHING, "catching ended by any new filter") \
    X(FAILURE_ENDS_CATCHING, "catching ended by a failure") \
    X(DISABLING_ENDS_CATCHING, "catching ended by disabling") \
    X(ENABLING_ENDS_CATCHING, "catching ended by enabling") \
    X(NOT_CATCHING_ANSWERED, "2F answers 0 when not catching") \
    X(CATCHING_ANSWERS_1, "2F answers 1 when catching") \
    /* Movement-based occupancy (02, M-100): its opcodes to the others */ \
    X(PRESENCE_CATCHES, "presence obeys 20") \
    X(PRESENCE_HAS_HOLD, "presence obeys 21, and answers 2D by it") \
    X(PRESENCE_CANCELS, "presence obeys 24: vacant until the next tick") \
    X(PRESENCE_ANSWERS_2D, "presence answers 2D with MASK") \
    X(PRESENCE_ANSWERS_2F, "presence answers 2F with 0") \
    X(LIGHT_ANSWERS_2D, "light answers 2D with MASK") \
    X(LIGHT_ANSWERS_2F, "light answers 2F with 0") \
    X(IM_ANSWERS_29, "IM answers 29") \
    /* Colour sensors (02, M-104): declarations, at the start */ \
    X(COLOUR_REFUSED, "IN of type 5 refused with 4") \
    X(COLOUR_RESOLUTION_2, "colour with resolution 2 taken, as 24") \
    X(COLOUR_RESOLUTION_8, "colour with resolution 8 taken, as 24") \
    X(COLOUR_RESOLUTION_23, "colour with resolution 23 taken, as 24") \
    X(COLOUR_RESOLUTION_25, "colour with resolution 25 taken, as 24") \
    X(TYPE_6_IS_COLOUR, "type 6 taken for colour") \
    X(LO_COLOUR_TAKEN, "LO of type 5 taken, as IN's") \
    X(LO_COLOUR_IS_LIGHT, "LO of type 5 taken for light") \
    X(IM_COLOUR_TAKEN, "IM of type 5 taken, as IN's") \
    X(COLOUR_DEADTIME_OF_OCCUPANCY, "colour starts with occupancy's deadtime") \
    X(COLOUR_REPORT_OF_OCCUPANCY, "colour starts with occupancy's report") \
    X(COLOUR_FILTER_OF_OCCUPANCY, "colour starts with occupancy's filter") \
    X(COLOUR_PRIORITY_2, "colour starts with priority 2") \
    X(COLOUR_HYSTERESIS_OF_LIGHT, "colour starts with light's hysteresis") \
    X(COLOUR_MIN_OF_LIGHT, "colour starts with hysteresisMin by its resolution, as light") \
    X(COLOUR_MIN_STARTS_AS_0, "colour starts with hysteresisMin 0") \
    X(COLOUR_STARTS_VALID, "colour valid and black before its first sample") \
    X(COLOUR_REPORT_WAITS, "report timer of colour starts with its first valid tick") \
    X(FIRST_BAND_IS_MIN, "first band of colour is hysteresisMin, not 0") \
    X(CALL_FORGETS_LAST, "reading that goes on from an earlier one's state forgets colour's last values") \
    X(CALL_FORGETS_COLOUR_BAND, "reading that goes on from an earlier one's state forgets colour's band") \
    X(CALL_FORGETS_DTR0, "reading that goes on from an earlier one's state forgets DTR0") \
    /* Colour sensors (02, M-104): samples, values, information */ \
    X(RED_255_TAKEN, "red of 255 taken") \
    X(GREEN_255_TAKEN, "green of 255 taken") \
    X(BLUE_255_TAKEN, "blue of 255 taken") \
    X(COLOUR_VALUE_OF_LIGHT, "colour takes any value but 0xFFFFFF, as light") \
    X(CHANNEL_254_REFUSED, "channel of 254 refused") \
    X(CHANNEL_255_HELD, "colour with a channel of 255 refused, and held all the same") \
    X(COLOUR_NOT_READY_REFUSED, "colour status 1 refused with 6, as occupancy's") \
    X(COLOUR_NOT_READY_WITH_VALUE, "colour: value other than 0 taken with status 1") \
    X(COLOUR_FAILURE_WITH_VALUE, "colour: value other than 0 taken with status 2") \
    X(COLOUR_NOT_READY_TAKEN, "colour: status 1 after a valid sample taken, as before M-110") \
    X(COLOUR_NOT_READY_AFTER_FAILURE, "colour: status 1 after a valid sample taken while a failure is held") \
    X(COLOUR_THIRTEEN_BEFORE_SIX, "colour status 1 with a value other than 0, after a valid sample: 13 before 6") \
    X(RED_ON_TOP, "inputValue of colour with red on top") \
    X(COLOUR_MASK_MISSING, "colour: MASK missing, the last value shown") \
    X(COLOUR_MASK_IS_0, "colour: MASK is 00 00 00") \
    X(COLOUR_MASK_OF_TWO_BYTES, "colour: MASK of two bytes") \
    X(COLOUR_INFORMATION_RED_ON_TOP, "information of colour with red on top") \
    X(COLOUR_INFORMATION_TWO_BITS, "information of two bits of each channel") \
    X(COLOUR_INFORMATION_TEN_BITS, "information of four bits of blue: bit 9 used") \
    X(COLOUR_INFORMATION_OF_LIGHT, "information of colour is the top ten bits of its value, as light's") \
    X(COLOUR_INFORMATION_LOW_BITS, "information of the low three bits of each channel") \
    X(COLOUR_REPORT_MARKED, "information bit 9 set in colour's reports") \
    /* Colour sensors (02, M-104): the change */ \
    X(CHANGE_OF_ONE, "change is that of the channel that changed most") \
    X(CHANGE_OF_RED_ALONE, "change of red alone") \
    X(CHANGE_WITHOUT_RED, "change without red") \
    X(CHANGE_WITHOUT_GREEN, "change without green") \
    X(CHANGE_WITHOUT_BLUE, "change without blue") \
    X(CHANGE_SIGNED, "change of the sum: rises and falls cancel") \
    X(CHANGE_OF_RISES_ALONE, "change of channels that rise alone") \
    X(CHANGE_OF_NUMBER, "change of the 24-bit number") \
    X(CHANGE_IN_A_BYTE, "change kept in a byte") \
    X(CHANGE_FROM_TICK_BEFORE, "change from the tick before, not from the last event by a change") \
    X(CHANGE_AT_BAND, "change as large as the band sends") \
    X(CHANGE_PASSES, "change sends only at the tick at which it becomes greater than the band") \
    X(CHANGE_WAITS, "change in dead time waits, and sends though it goes back") \
    X(COLOUR_DEAD_TIME_FORGETS, "change in dead time forgotten: last values and band new without an event") \
    X(COLOUR_DISABLED_FORGETS, "change while disabled forgotten: last values and band new without an event") \
    X(FIRST_BLACK_SENDS, "black sends where last values and band are 0") \
    X(SAME_INFORMATION_UNSENT, "change that leaves the information as it was not sent") \
    X(COLOUR_HYSTERESIS_0_SENDS, "colour: hysteresis 0 sends by the change") \
    X(COLOUR_CHANGE_UNFILTERED, "colour's change sent without filter bit 0") \
    X(COLOUR_REPORT_UNFILTERED, "colour's report sent without filter bit 0") \
    X(COLOUR_SENDS_NOT_READY, "colour's report sent while not ready") \
    X(COLOUR_PRIORITY_5_NOT_ALONE, "colour: priority 5 whenever the due report is a cause, the only one or not") \
    X(COLOUR_CHANGE_PRIORITY_5, "colour: priority 5 for a change") \
    X(COLOUR_REPORT_OWN_PRIORITY, "colour's report sent with its own priority") \
    /* Colour sensors (02, M-104): last values and band */ \
    X(COLOUR_REPORT_INSIDE_RENEWS, "report inside the band makes last values and band new") \
    X(COLOUR_REPORT_OUTSIDE_RENEWS, "report outside the band, with hysteresis 0, makes last values and band new") \
    X(COLOUR_REPORT_RENEWS_LAST, "report makes the last values new, not the band") \
    X(COLOUR_REPORT_RENEWS_BAND, "report makes the band new, not the last values") \
    X(COLOUR_TOGETHER_RENEWS_NOTHING, "change together with a due report leaves last values and band") \
    X(COLOUR_BAND_STAYS, "first band stays, last values made new alone") \
    X(COLOUR_LAST_STAYS, "last values stay black, band made new alone") \
    X(COLOUR_BAND_SUM, "band is the sum of hysteresisMin and hysteresis percent") \
    X(COLOUR_BAND_SMALLER, "band is the smaller of the two") \
    X(COLOUR_MIN_IGNORED, "band without hysteresisMin") \
    X(COLOUR_HYSTERESIS_IGNORED, "band of hysteresisMin alone") \
    X(COLOUR_BAND_ROUNDED_UP, "band rounded up") \
    X(COLOUR_BAND_ROUNDED_NEAR, "band rounded to the nearest") \
    X(COLOUR_BAND_ROUNDED_THRICE, "band rounded down channel by channel") \
    X(COLOUR_BAND_OF_LARGEST, "band of the largest channel") \
    X(COLOUR_BAND_OF_RED, "band of red alone") \
    X(COLOUR_BAND_WITHOUT_BLUE, "band without blue") \
    X(COLOUR_BAND_OF_MEAN, "band of the mean of the channels") \
    X(COLOUR_BAND_OF_CHANGE, "band of the change, not of the values") \
    X(COLOUR_BAND_OF_LAST, "band of the values before the event") \
    X(COLOUR_BAND_OF_NOW, "band by the settings of now, not of its event") \
    X(COLOUR_BAND_191_AT_MOST, "band held at 191") \
    X(FAILURE_DISCARDS_COLOUR, "failure makes last values and band 0") \
    X(FAILURE_DISCARDS_COLOUR_BAND, "failure makes the band 0") \
    X(FAILURE_DISCARDS_LAST, "failure makes the last values 0") \
    X(COLOUR_SENDS_AFTER_FAILURE, "first valid colour behind a failure sends in any case") \
    X(DISABLING_DISCARDS_COLOUR, "disabling makes last values and band 0") \
    /* Colour sensors (02, M-104): timers, settings, queries */ \
    X(COLOUR_REPORT_UNIT_20, "report unit of colour 20 ticks") \
    X(REPORT_UNIT_100, "report unit of all types 100 ticks") \
    X(COLOUR_DEADTIME_UNIT_2, "deadtime unit of colour 2 ticks") \
    X(COLOUR_REPORT_BELOW_DEAD_TIME, "colour's report not held at dead time") \
    X(COLOUR_DEAD_TIME_0_RUNS_ON, "colour: deadtime set to 0 does not end the running dead time") \
    X(COLOUR_ENABLE_STARTS_REPORT, "enabling starts colour's report timer") \
    X(COLOUR_FILTER_MASKED, "68 of colour above 1 takes bit 0") \
    X(COLOUR_FILTER_TAKEN_WHOLE, "68 of colour above 1 taken as it is") \
    X(COLOUR_FILTER_0_REFUSED, "68 of colour with 0 not taken") \
    X(LIGHT_FILTER_DISCARDED, "68 of light above 1 not taken, as colour's") \
    X(OCCUPANCY_FILTER_DISCARDED, "68 of occupancy above 1F not taken, as colour's") \
    X(COLOUR_HYSTERESIS_HELD, "hysteresis of colour above 25 taken as 25") \
    X(COLOUR_MIN_191_AT_MOST, "hysteresisMin of colour above 191 not taken") \
    X(COLOUR_40_42_SWAPPED, "40 and 42 swapped") \
    X(COLOUR_41_43_SWAPPED, "41 and 43 swapped") \
    X(COLOUR_4C_4F_SWAPPED, "4C and 4F swapped") \
    X(COLOUR_4D_4E_SWAPPED, "4D and 4E swapped") \
    X(COLOUR_44_SETS_MIN, "colour: 44 sets hysteresisMin") \
    X(COLOUR_ANSWERS_TYPE_4, "colour: 80 answers 4") \
    X(COLOUR_ANSWERS_CHANNEL_WIDTH, "colour: 81 answers 8") \
    X(COLOUR_ANSWERS_4A, "colour answers 4A") \
    X(COLOUR_OBEYS_LIGHT, "colour obeys light's setting commands") \
    X(COLOUR_OBEYS_OCCUPANCY, "colour obeys occupancy's setting commands") \
    X(LIGHT_OBEYS_COLOUR, "light obeys colour's setting commands") \
    X(OCCUPANCY_OBEYS_COLOUR, "occupancy obeys colour's setting commands") \
    X(COLOUR_ANSWERS_LIGHT, "colour answers light's queries") \
    X(COLOUR_ANSWERS_OCCUPANCY, "colour answers occupancy's queries") \
    X(LIGHT_ANSWERS_COLOUR, "light answers colour's queries") \
    X(OCCUPANCY_ANSWERS_COLOUR, "occupancy answers colour's queries") \
    /* Colour sensors (02, M-104): the colour query */ \
    X(COLOUR_IGNORES_4B, "4B ignored") \
    X(DISABLED_IGNORES_4B, "4B ignored while disabled") \
    X(FAILED_IGNORES_4B, "4B ignored while not ready or failed") \
    X(LIGHT_ANSWERS_4B, "light answers 4B, and DTR0 counts up") \
    X(OCCUPANCY_ANSWERS_4B, "occupancy answers 4B, and DTR0 counts up") \
    X(LIGHT_COUNTS_DTR0, "4B to light counts DTR0 up") \
    X(OCCUPANCY_COUNTS_DTR0, "4B to occupancy counts DTR0 up") \
    X(UNDECLARED_COUNTS_DTR0, "4B to an instance that is not declared counts DTR0 up") \
    X(OTHER_ADDRESS_COUNTS_DTR0, "4B by another address counts DTR0 up") \
    X(COLOUR_QUERIES_COUNT, "4C to 4F count DTR0 up too") \
    X(COUNTED_BEFORE_ANSWER, "4B counts DTR0 up before it answers") \
    X(QUERY_LEAVES_DTR0, "4B does not count DTR0 up") \
    X(UNANSWERED_LEAVES_DTR0, "4B without an answer does not count DTR0 up") \
    X(UNANSWERED_WANTS_ROOM, "4B without an answer refused with 9 where no answer has room") \
    X(FULL_COUNTS_DTR0, "4B that finds no room counts DTR0 up") \
    X(DTR0_STAYS_255, "4B leaves DTR0 at 255") \
    X(DTR0_0_AFTER_14, "4B counts DTR0 from 14 to 0") \
    X(DTR0_COUNTED_PER_INSTANCE, "4B counts for its own instance alone, and not for settings") \
    X(COLOUR_QUERY_UNLATCHES, "4B drops what is latched") \
    X(ROW_15_ANSWERED, "4B with DTR0 15 answers 0") \
    X(NO_ROW_ANSWERED, "4B with DTR0 above 14 answers MASK") \
    X(WAVELENGTH_ROUNDED_UP, "wavelengths rounded up") \
    X(WAVELENGTH_AS_PRINTED, "wavelengths as 003, Table A.1 prints them: 188, 138, 88") \
    X(WAVELENGTH_LOW_BYTE, "wavelengths answered as the low byte of the nanometres") \
    X(LOWER_WAVELENGTH_FIRST, "lower wavelength first, upper one last") \
    X(BLUE_WAVELENGTHS_FIRST, "wavelengths of blue first, of red last") \
    X(BLUE_IRRADIANCE_FIRST, "irradiance of blue first, of red last") \
    X(IRRADIANCE_LOW_BYTE_FIRST, "low byte of an irradiance first") \
    /* Widths */ \
    X(ZERO_PADDED, "inputValue padded with zeros") \
    X(NOT_WIDENED, "inputValue is the measured value, not widened") \
    X(BYTE_TOO_MANY, "a byte too many at resolutions 8, 16 and 24") \
    X(INFORMATION_LOW_BITS, "information from the low ten bits at resolutions above 10") \
    X(INFORMATION_ZERO_PADDED, "information padded with zeros") \
    X(MASK_MISSING, "MASK missing: the last value shown") \
    X(MASK_ONLY_FAILED, "MASK missing for status 1") \
    X(FAILURE_CLEARS_VALUE, "failure clears the occupancy value, the old one of Table 11 too") \
    /* Each type carries its own defaults */ \
    X(DEADTIME_OF_LIGHT, "occupancy starts with light's deadtime") \
    X(REPORT_OF_LIGHT, "occupancy starts with light's report") \
    X(FILTER_OF_LIGHT, "occupancy starts with light's filter") \
    X(MIN_ROUNDED_UP, "hysteresisMin rounded up at start") \
    X(MIN_NOT_LIMITED, "hysteresisMin at start cut to its low byte, not held at 255") \
    X(STARTS_WITHOUT_REPORT, "report timer not started at start") \
    X(STARTS_IN_DEAD_TIME, "dead time runs at start") \
    /* Frames */ \
    X(PRIORITY_LOW_TAKEN, "priorities 0 and 1 taken") \
    X(PRIORITY_HIGH_TAKEN, "priorities above 5 taken") \
    X(PRIORITY_5_REFUSED, "priority 5 not taken") \
    X(HYSTERESIS_HIGH_TAKEN, "hysteresis above 25 taken") \
    X(HYSTERESIS_25_REFUSED, "hysteresis 25 not taken") \
    X(FILTER_NOT_MASKED, "filter bits that are not kept, kept") \
    X(LIGHT_OBEYS_OCCUPANCY, "light obeys occupancy's setting commands") \
    X(OCCUPANCY_OBEYS_LIGHT, "occupancy obeys light's setting commands") \
    X(ALL_ADDRESS_IGNORED, "byte 1 FF ignored") \
    X(OTHER_ADDRESS_COUNTS, "byte 1 03 counts") \
    X(INSTANCE_BYTE_MASKED, "byte 2 read without its three high bits") \
    X(NOT_READY_IS_ERROR, "status 1 answered as an error") \
    X(NO_ERROR_ANSWERED, "error query answers 0 when not failed") \
    X(STATUS_BITS_SWAPPED, "status bits swapped") \
    X(DISABLED_ANSWERED, "enabled query answers 0 when disabled") \
    X(LATCH_SHARED, "one latch for all instances") \
    X(LATCH_NOT_CONSUMED, "latched byte not consumed") \
    X(LATCH_EMPTY_ANSWERS, "8D answers when used up or when nothing was latched") \
    X(LATCH_LIVE, "8D answers from the value of now") \
    /* Frames: "anything else is ignored: taken, no change, no answer" */ \
    X(ANSWERS_85, "answers 85") \
    X(ANSWERS_87_FAILED, "answers 87 while failed") \
    X(LIGHT_ANSWERS_40, "light answers 40") \
    X(LIGHT_ANSWERS_OCCUPANCY, "light answers occupancy's queries") \
    X(OCCUPANCY_ANSWERS_LIGHT, "occupancy answers light's queries") \
    X(OPCODE_00_STARTS_DEAD_TIME, "00 starts dead time") \
    X(OPCODE_20_CLEARS_WAITING, "20 clears the waiting triggers of presence") \
    X(OPCODE_21_STARTS_REPORT, "21 starts the report timer of light and presence") \
    X(OPCODE_24_ENDS_DEAD_TIME, "24 ends dead time of light and presence") \
    X(OPCODE_34_SETS_MIN, "34 sets hysteresisMin") \
    X(OPCODE_60_SETS_PRIORITY, "60 sets the priority") \
    X(OPCODE_64_DISABLES, "64 disables") \
    X(OPCODE_65_ENABLES, "65 enables") \
    X(OPCODE_69_SETS_FILTER, "69 sets the filter") \
    X(OPCODE_8B_LATCHES, "8B latches the input value") \
    X(OPCODE_8E_USES_UP, "8E uses up a latched byte") \
    X(OPCODE_C1_LOADS_DTR0, "C1 as byte 3 loads DTR0 with C1") \
    X(OPCODE_FF_STOPS_REPORT, "FF stops the report timer") \
    /* Timers */ \
    X(REPORT_BELOW_DEAD_TIME, "report not held at dead time") \
    X(REPORT_RESTARTED_BY_SET, "report set above 0 always starts the timer") \
    X(DUE_IS_STOPPED, "report set above 0 while due starts the timer") \
    X(DEAD_TIME_SET_AT_ONCE, "deadtime set while dead time runs starts it anew") \
    X(DEAD_TIME_0_RUNS_ON, "deadtime set to 0 does not end the running dead time") \
    X(DEAD_TIME_0_LIGHT_ALONE, "deadtime set to 0 ends the running dead time of light alone") \
    X(DEAD_TIME_0_OCCUPANCY_ALONE, "deadtime set to 0 ends the running dead time of occupancy alone") \
    X(DEAD_TIME_0_WAITS_DISABLED, "deadtime set to 0 while disabled does not end the running dead time") \
    X(DEAD_TIME_0_WAITS_FAILED, "deadtime set to 0 in a failure does not end the running dead time") \
    X(DEAD_TIME_0_SUSPENDS, "deadtime set to 0 only suspends: dead time left when deadtime is set above 0 holds again") \
    X(DEAD_TIME_1_ENDS, "deadtime set to 1 ends the running dead time too") \
    X(DEAD_TIME_0_STARTS_REPORT, "deadtime set to 0 starts the report timer again") \
    X(DEAD_TIME_0_STOPS_REPORT, "deadtime set to 0 stops the report timer") \
    X(DEAD_TIME_0_CUTS_REPORT, "deadtime set to 0 cuts the running report timer to report's own time") \
    X(DEAD_TIME_0_DROPS_WAITING, "deadtime set to 0 drops the waiting triggers") \
    X(REPORT_0_RUNS_ON, "report set to 0 does not stop the timer") \
    X(REPORT_0_STAYS_DUE, "report set to 0 leaves a due report due") \
    X(STOPPED_NOT_STARTED, "report set above 0 does not start a stopped timer") \
    X(DUE_PASSES, "due report passes: the timer starts again at the next tick") \
    X(CHANGE_KEEPS_REPORT, "event by change does not start the report timer") \
    X(REPORT_NO_DEAD_TIME, "event by the report alone does not start dead time") \
    X(TIMERS_REST_DISABLED, "timers stand still while disabled") \
    X(ENABLE_STARTS_REPORT, "enabling starts the report timer") \
    /* Configuration commands come twice (02, M-105): which frames */ \
    X(SETS_AT_ONCE, "set commands act at once, as before M-105") \
    X(FIRST_ACTS, "the first of a pair acts, and its repeat does not") \
    X(REPEAT_IGNORED, "the repeat does not act either") \
    X(PRIORITY_AT_ONCE, "61 acts at once") \
    X(ENABLE_AT_ONCE, "62 acts at once") \
    X(DISABLE_AT_ONCE, "63 acts at once") \
    X(FILTER_AT_ONCE, "68 acts at once") \
    X(REPORT_AT_ONCE, "report set at once") \
    X(REPORT_0_AT_ONCE, "report set to 0 at once, to others by its repeat") \
    X(DEADTIME_AT_ONCE, "deadtime set at once") \
    X(DEADTIME_0_AT_ONCE, "deadtime set to 0 at once, to others by its repeat") \
    X(HYSTERESIS_AT_ONCE, "hysteresis set at once") \
    X(MIN_AT_ONCE, "hysteresisMin set at once") \
    X(HOLD_AT_ONCE, "hold set at once") \
    X(LIGHT_SETS_AT_ONCE, "light's own set commands act at once") \
    X(OCCUPANCY_SETS_AT_ONCE, "occupancy's own set commands act at once") \
    X(COLOUR_SETS_AT_ONCE, "colour's own set commands act at once") \
    X(LO_SETS_AT_ONCE, "LO: set commands act at once") \
    X(SETS_AT_ONCE_BY_FF, "set commands by FF act at once") \
    X(SETS_AT_ONCE_DISABLED, "set commands act at once while disabled") \
    X(SETS_AT_ONCE_FAILED, "set commands act at once in a failure") \
    X(QUERIES_COME_TWICE, "queries answered at their repeat") \
    X(COLOUR_QUERY_COMES_TWICE, "4B answered at its repeat") \
    X(CATCH_COMES_TWICE, "catch movement acts at its repeat") \
    X(CANCEL_COMES_TWICE, "cancel hold acts at its repeat") \
    X(DTR0_LOAD_COMES_TWICE, "DTR0 loaded at the repeat") \
    /* Configuration commands come twice (02, M-105): the same frame, in time */ \
    X(SAME_WITHOUT_BYTE_1, "01 and FF taken for the same first byte") \
    X(SAME_WITHOUT_BYTE_2, "repeat to another instance acts") \
    X(SAME_WITHOUT_BYTE_3, "any second set command to the same instance acts") \
    X(PAIR_WITHIN_0, "repeat in the same tick alone: a tick drops the first") \
    X(PAIR_WITHIN_1, "repeat within 1 tick") \
    X(PAIR_WITHIN_3, "repeat within 3 ticks") \
    X(PAIR_WITHIN_20, "repeat within 20 ticks") \
    X(PAIR_WITHIN_ANY, "repeat at any later tick") \
    X(PAIR_IN_A_LATER_TICK, "repeat in the same tick does not count") \
    X(PAIR_AGE_IN_A_BYTE, "ticks between the two kept in a byte") \
    X(PAIR_AGE_IN_16_BITS, "ticks between the two kept in 16 bits") \
    X(PAIR_TIME_WRAPS, "last tick for the repeat wraps at 32 bits") \
    X(PAIR_COUNTS_TKS, "a TK between counts as one tick") \
    X(SECOND_TK_DROPS_FIRST, "a second TK between drops the first") \
    X(LONG_TK_DROPS_FIRST, "a TK of more than one tick between drops the first") \
    X(SAMPLE_MOVES_FIRST, "a sample between: the ticks count from there") \
    X(LATE_KEEPS_TICK, "repeat that is late leaves the first where it was") \
    /* Configuration commands come twice (02, M-105): what drops the first */ \
    X(SAMPLE_DROPS_FIRST, "a sample drops the first") \
    X(OWN_SAMPLE_DROPS_FIRST, "a sample of its instance drops the first") \
    X(EVENT_DROPS_FIRST, "an event drops the first") \
    X(IGNORED_KEEPS_FIRST, "an opcode that the instance does not have leaves the first") \
    X(QUERY_KEEPS_FIRST, "a query leaves the first") \
    X(UNANSWERED_KEEPS_FIRST, "a query without an answer leaves the first") \
    X(COLOUR_QUERY_KEEPS_FIRST, "4B leaves the first") \
    X(CATCH_KEEPS_FIRST, "catch movement leaves the first") \
    X(CANCEL_KEEPS_FIRST, "cancel hold leaves the first") \
    X(DTR0_LOAD_KEEPS_FIRST, "a DTR0 load leaves the first") \
    X(FIRST_KEEPS_DTR0, "a DTR0 load leaves the first, and the repeat takes DTR0 as it was at the first") \
    X(NOBODY_KEEPS_FIRST, "a frame that counts for nobody leaves the first") \
    X(UNDECLARED_KEEPS_FIRST, "a frame to an instance that is not declared leaves the first") \
    X(OTHER_ADDRESS_KEEPS_FIRST, "a frame by another address leaves the first") \
    X(OTHER_SET_KEEPS_FIRST, "another set command leaves the first, and is none") \
    X(OUT_OF_RANGE_KEEPS_FIRST, "a set command with a DTR0 that it does not take leaves the first, and is none") \
    X(OTHER_INSTANCE_KEEPS_FIRST, "a frame to another instance leaves the first, and is none") \
    X(FIRST_PER_INSTANCE, "each instance remembers a first of its own") \
    X(OTHER_SET_NOT_FIRST, "another set command drops the first, and is none") \
    X(LATE_NOT_FIRST, "repeat that is late drops the first, and is none") \
    X(REPEAT_IS_FIRST, "the repeat is a first too: the third acts") \
    X(FIRST_NOT_FORGOTTEN, "the first stays remembered: the third acts") \
    X(THIRD_NOT_FIRST, "the third is no first: the fourth does not act") \
    X(REFUSED_DROPS_FIRST, "a refused record drops the first") \
    X(REFUSED_SAMPLE_DROPS_FIRST, "a refused sample drops the first") \
    X(CUT_DROPS_FIRST, "a cut record drops the first") \
    X(FULL_TICK_DROPS_FIRST, "a tick without room drops the first") \
    X(FULL_QUERY_DROPS_FIRST, "a query without room drops the first") \
    X(CALL_FORGETS_FIRST, "reading that goes on from an earlier one's state forgets the first") \
    /* Configuration commands come twice (02, M-105): what the first leaves */ \
    X(FIRST_DROPS_WAITING, "the first drops waiting triggers") \
    X(FIRST_DISABLING_DROPS_WAITING, "the first 63 drops waiting triggers") \
    X(FIRST_FILTER_DROPS_WAITING, "the first 68 drops waiting triggers that the new filter does not allow") \
    X(FIRST_STARTS_REPORT, "the first starts the report timer again") \
    X(FIRST_STOPS_REPORT, "the first stops the report timer, report 0") \
    X(FIRST_ENDS_DEAD_TIME, "the first ends a running dead time, deadtime 0") \
    X(FIRST_UNLATCHES, "the first drops what is latched") \
    X(FIRST_CLEARS_DTR0, "the first leaves DTR0 0") \
    X(FIRST_NOT_ANOTHER_KIND, "the first not counted as a record of another kind than IN") \
    /* One tick */ \
    X(PRIORITY_5_NOT_ALONE, "priority 5 whenever the due report is a cause, the only one or not") \
    X(REPORT_OWN_PRIORITY, "report sent with the instance's priority") \
    X(REPEAT_NOT_ALONE, "bit 2 whenever the due report is a cause, the only one or not") \
    X(INFORMATION_TICK_BEFORE, "information from the value before this tick") \
    X(SENDS_DISABLED, "events sent while disabled") \
    X(SENDS_FAILED, "report sent in a failure") \
    X(FALLING_ORDER, "instances in falling order") \
    X(LIGHT_REPORT_UNFILTERED, "light report sent without filter bit 0") \
    X(REPEAT_UNFILTERED, "occupancy report sent without filter bit 2") \
    X(REPEAT_BY_STATE, "occupancy report wants filter bit 0 too when occupied, else bit 1") \
    X(HYSTERESIS_0_SENDS, "hysteresis 0 sends by the band") \
    X(NO_BAND_IS_0, "no band is a band from 0 to 0") \
    X(BAND_EDGE_OUTSIDE, "band edges are outside the band") \
    X(BAND_NEVER_BY_REPORT, "band neither made nor moved by the report alone") \
    X(BAND_WRAPS, "low wraps round below 0") \
    X(BAND_KEPT_FAILED, "status 2 keeps the band") \
    X(WIDTH_SMALLER, "width is the smaller of the two") \
    X(WIDTH_ROUNDED_UP, "width rounded up") \
    X(ONE_TRIGGER, "two changes at once give Occupied or Vacant alone") \
    X(FILTER_WHEN_SENT, "trigger without its filter bit waits for the next filter") \
    X(TRIGGER_UNFILTERED, "trigger without its filter bit waits and sends") \
    X(NEW_FILTER_KEEPS, "new filter does not drop waiting triggers") \
    X(DISABLING_KEEPS, "disabling keeps waiting triggers") \
    X(FAILURE_KEEPS, "failure keeps waiting triggers") \
    X(DISABLED_WAITS, "trigger in a disabled time waits") \
    X(DISABLED_NOT_TAKEN, "occupancy value not taken while disabled") \
    X(EVENT_KEEPS_WAITING, "event clears only the first waiting trigger")

enum {
    NO_FAULT,
#define X(name, text) name,
    SECOND_FAULT_LIST(X)
#undef X
    FAULTS_END
};

#endif
