/* The examples that c/test.c holds the library against: document 01's P1 to P14, its boundaries, every refusal of every call, every change
 * of a repair, and what can become of a table of totals. */
#include "test_cases.h"
#include "calls.h"

#define LINE .line = __LINE__
#define READ(which, bytes, answer) {LINE, .call = which, .ours = bytes, .told = answer}
#define WRITE(flags, bytes, len) \
    {LINE, .call = SERIALIZE, .ours = flags, .told = bytes}, {LINE, .call = SERIALIZED_SIZE, .ours = flags, .told = len}
#define IMPROPER(flags) \
    WRITE(flags, "refused 11", "refused 11"), ADD(flags, "0@9", 1, 0, "refused 11"), ADD("0@0", flags, 1, 0, "refused 11"), \
    ABSENT_ADD(flags, "refused 11"), TAKE(flags, "0@9", "none", 0, "refused 11"), TAKE("0@0", flags, "none", 0, "refused 11"), \
    ABSENT_TAKE(flags, "none", "refused 11"), OF_KEY(flags, 0, "refused 11"), OF_VALUE(flags, 0, "refused 11"), \
    REPLACE("totals", flags, "0@9", "refused 11"), REPLACE("totals", "0@0", flags, "refused 11"), \
    REPLACE("totals", "none", flags, "refused 11"), REPLACE("totals", flags, "none", "refused 11")
#define OWNER(first, second, rule, answer) \
    {LINE, .call = COMBINE_OWNER_ID, .ours = first, .theirs = second, .strategy = rule, .told = answer}
#define ADD(first, second, more, rule, answer) \
    {LINE, .call = COMBINE_ADDED, .ours = first, .theirs = second, .amount = more, .strategy = rule, .told = answer}
#define TAKE(first, second, rows, rule, answer) \
    {LINE, .call = COMBINE_REMOVED, .ours = first, .theirs = second, .removal = rows, .strategy = rule, .told = answer}
#define ABSENT_ADD(second, answer) \
    {LINE, .call = OPTIONAL_ADDED, .ours = "none", .theirs = second, .amount = 9, .told = answer}
#define ABSENT_TAKE(second, rows, answer) \
    {LINE, .call = OPTIONAL_REMOVED, .ours = "none", .theirs = second, .removal = rows, .told = answer}
#define OF_KEY(flags, bytes, answer) {LINE, .call = SPLIT_KEY, .ours = flags, .amount = bytes, .told = answer}
#define OF_VALUE(flags, bytes, answer) {LINE, .call = SPLIT_VALUE, .ours = flags, .amount = bytes, .told = answer}
#define PLUS(first, second, at, answer) {LINE, .call = ADD_ASSIGN, .left = first, .removal = second, .version = at, .told = answer}
#define PLUS_BOTH(first, second, answer) PLUS(first, second, 0, answer), PLUS(first, second, 1, answer)
#define TOTAL(rows, has, total) \
    {LINE, .call = HAS_REMOVAL, .removal = rows, .told = has}, {LINE, .call = TOTAL_REMOVED, .removal = rows, .told = total}
#define REPAIR_OLD(bytes, answer) {LINE, .call = REPAIR, .ours = bytes, .told = answer}
#define REPLACE(table, first, second, answer) \
    {LINE, .call = TOTALS_REPLACE, .totals = table, .ours = first, .theirs = second, .told = answer}
#define BAD_TOTALS(table) \
    REPLACE(table, "none", "none", "refused 11"), REPLACE(table, "0@5", "0@9", "refused 11"), REPLACE(table, "1@5 7:1", "1@5 7:1", "refused 11")
#define BAD_ROWS(rows) \
    TOTAL(rows, "refused 11", "refused 11"), PLUS_BOTH(rows, "none", "refused 11"), PLUS_BOTH("none", rows, "refused 11"), \
    TAKE("0@5", "0@9", rows, 0, "refused 11"), ABSENT_TAKE("0@5", rows, "refused 11")

/* owners as bytes */
#define A "4141414141414141414141414141414141414141414141414141414141414141"
#define B "4242424242424242424242424242424242424242424242424242424242424242"
#define Z "0102030405060708090A0B0C0D0E0F101112131415161718191A1B1C1D1E1F20"

const example examples[] = {
    /* P1 to P9 */
    READ(DESERIALIZE, "", "none"),
    READ(DESERIALIZE, "000005", "0@5"),
    READ(DESERIALIZE, "0005", "refused 2"),
    READ(DESERIALIZE, "010005", "refused 2"),
    READ(DESERIALIZE, "0100050007AC02", "1@5 7:300"),
    READ(DESERIALIZE, "010005000501", "refused 3"),
    READ(DESERIALIZE, "01000500078100", "refused 3"),
    READ(DESERIALIZE, "010005000780", "refused 2"),
    READ(DESERIALIZE, "04", "refused 1"),
    /* P10 to P12: a split, and its merge */
    OF_VALUE("1@5 7:10 9:5", 6, "rows 0/7:4 0/9:2, visited 2"),
    TAKE("1@5 7:10 9:5", "0@9", "rows 0/7:4 0/9:2", 0, "1@5 7:6"),
    OF_VALUE("1@5 7:10 9:5", 20, "rows 0/5:11 0/7:7 0/9:2, visited 2"),
    TAKE("1@5 7:10 9:5", "0@9", "rows 0/5:11 0/7:7 0/9:2", 0, "0@5"),
    OF_VALUE("1@5 7:10 9:3", 1, "rows 0/7:1 0/9:0, visited 2"),
    TAKE("1@5 7:10 9:3", "0@9", "rows 0/7:1 0/9:0", 0, "1@5 7:9"),
    /* P13, P14 */
    ADD("1@5 7:300", "0@7", 50, 0, "1@5 7:350"),
    ADD("1@5 7:300", "0@8", 0, 0, "1@5 7:300 8:0"),
    PLUS("basic 4", "rows 0/3:10", 0, "rows"),
    PLUS("basic 4", "rows 0/3:10", 1, "rows 0/3:10 0/65535:4"),

    /* reading: owners, limits, and faults in their order */
    READ(DESERIALIZE, "02" Z "0005", "2@5/z"),
    READ(DESERIALIZE, "03" A "000500070A000905", "3@5/A 7:10 9:5"),
    READ(DESERIALIZE, "02" A "000500", "refused 2"),
    READ(DESERIALIZE, "02" A "00", "refused 2"),
    READ(DESERIALIZE, "03" A "0005", "refused 2"),
    READ(DESERIALIZE, "FF000005", "refused 1"),
    READ(DESERIALIZE, "00FFFF", "0@65535"),
    READ(DESERIALIZE, "01FFFEFFFF01", "1@65534 65535:1"),
    READ(DESERIALIZE, "01FFFFFFFF01", "refused 3"),
    READ(DESERIALIZE, "0100050007FFFFFFFF0F", "1@5 7:4294967295"),
    READ(DESERIALIZE, "0100050007FFFFFFFF10", "refused 3"),
    READ(DESERIALIZE, "010005000780808080808080808000", "refused 3"),
    READ(DESERIALIZE, "010005000780808080808080808080", "refused 2"),
    READ(DESERIALIZE, "01000500070100", "refused 2"),
    READ(DESERIALIZE, "010005000701000702", "refused 3"),
    READ(DESERIALIZE, "010005000580", "refused 2"),
    /* the readers by kind do not look at byte 0 */
    READ(READ_SINGLE, "", "refused 2"),
    READ(READ_SINGLE, "FF0005", "0@5"),
    READ(READ_SINGLE, "01000500", "refused 2"),
    READ(READ_MULTI, "", "refused 2"),
    READ(READ_MULTI, "FF00050007AC02", "1@5 7:300"),
    READ(READ_MULTI, "010005000501", "refused 3"),
    READ(READ_SINGLE_OWNED, "", "refused 2"),
    READ(READ_SINGLE_OWNED, "FF" Z "0005", "2@5/z"),
    READ(READ_SINGLE_OWNED, "02" Z "000500", "refused 2"),
    READ(READ_MULTI_OWNED, "", "refused 2"),
    READ(READ_MULTI_OWNED, "FF" Z "00050007AC02", "3@5/z 7:300"),
    READ(READ_MULTI_OWNED, "03" A "0005000501", "refused 3"),

    /* writing */
    WRITE("0@5", "000005", "3"),
    WRITE("0@5/A", "000005", "3"),
    WRITE("2@65535/z", "02" Z "FFFF", "35"),
    WRITE("1@5 7:300", "0100050007AC02", "7"),
    WRITE("3@5/A 7:0 8:127 9:128", "03" A "0005000700" "00087F" "00098001", "45"),
    WRITE("1@0 1:16383 2:16384 3:2097151 4:2097152", "010000" "0001FF7F" "0002808001" "0003FFFF7F" "000480808001", "23"),
    WRITE("1@0 1:268435455 2:268435456 65535:4294967295", "010000" "0001FFFFFF7F" "00028080808001" "FFFFFFFFFFFF0F", "23"),
    IMPROPER("1@5"),
    IMPROPER("0@5 7:1"),
    IMPROPER("2@5/A 7:1"),
    IMPROPER("1@5 5:1"),
    IMPROPER("1@5 7:1 7:2"),
    IMPROPER("1@5 9:1 7:2"),
    IMPROPER("3@65535/A 65535:1"),
    IMPROPER("4@5"),
    IMPROPER("255@5 7:1"),

    /* whose owner: ours is read first, then theirs, then the rule */
    OWNER("", "", 0, "whose 0"),
    OWNER("000005", "0100050007AC02", 0, "whose 0"),
    OWNER("02" A "0005", "", 0, "whose 1"),
    OWNER("000005", "02" A "0005", 0, "whose 2"),
    OWNER("02" A "0005", "03" A "0005000701", 0, "whose 1"),
    OWNER("02" A "0005", "02" B "0005", 0, "refused 5"),
    OWNER("02" A "0005", "02" B "0005", 1, "whose 1"),
    OWNER("02" A "0005", "02" B "0005", 2, "whose 2"),
    OWNER("04", "00", 0, "refused 1"),
    OWNER("00", "04", 0, "refused 2"),
    OWNER("010005000501", "04", 1, "refused 3"),
    OWNER("000005", "04", 2, "refused 1"),
    OWNER("000005", "010005000501", 0, "refused 3"),
    OWNER("04", "04", 3, "refused 11"),
    OWNER("", "", 255, "refused 11"),

    /* adding: bases, then owners, the union, the amount */
    ADD("0@5", "0@4", 1, 0, "refused 4"),
    ADD("2@5/A", "2@4/B", 1, 0, "refused 4"),
    ADD("0@5", "0@5", 9, 0, "0@5"),
    ADD("0@5/A", "0@5/B", 9, 0, "0@5"),
    ADD("1@5 7:1 9:2", "1@5 8:3 9:4", 9, 0, "1@5 7:1 8:3 9:4"),
    ADD("2@5/A", "2@5/B", 9, 0, "refused 5"),
    ADD("2@5/A", "2@5/B", 9, 1, "2@5/A"),
    ADD("2@5/A", "2@5/B", 9, 2, "2@5/B"),
    ADD("0@5", "2@9/z", 9, 0, "3@5/z 9:9"),
    ADD("3@5/A 7:1", "2@9/B", 9, 0, "refused 5"),
    ADD("3@5/A 7:1", "2@9/B", 9, 1, "3@5/A 7:1 9:9"),
    ADD("3@5/A 7:1", "2@9/B", 9, 2, "3@5/B 7:1 9:9"),
    ADD("1@5 7:300", "0@7", 4294966995, 0, "1@5 7:4294967295"),
    ADD("1@5 7:300", "0@7", 4294966996, 0, "refused 6"),
    ADD("1@5 7:1", "1@6 7:2 8:3", 4, 0, "1@5 6:4 7:2 8:3"),
    ABSENT_ADD("0@5", "0@5"),
    ABSENT_ADD("3@5/A 7:300 9:1", "3@5/A 7:300 9:1"),
    ABSENT_ADD("1@5/A 7:300", "1@5 7:300"),

    /* removing: bases, ours of kind 0 or 2, owners, then sections in order */
    TAKE("1@5 7:9", "0@4", "none", 0, "refused 4"),
    TAKE("2@5/A", "2@9/B", "rows A/5:1", 0, "2@5/A"),
    TAKE("0@5/A", "0@9", "basic 1", 0, "0@5"),
    TAKE("3@5/A 7:9", "2@9/B", "none", 0, "refused 5"),
    TAKE("3@5/A 7:9", "2@9/B", "none", 2, "3@5/B 7:9"),
    TAKE("3@5/A 7:9", "2@9/B", "rows A/7:1", 2, "3@5/B 7:8"),
    TAKE("3@5/A 7:9", "2@9/B", "rows B/7:1", 2, "refused 5"),
    TAKE("3@5/A 7:9", "0@9", "rows A/7:1 B/7:1", 0, "refused 5"),
    TAKE("3@5/A 7:9", "0@9", "rows", 0, "refused 5"),
    TAKE("1@5 7:9", "0@9", "rows A/7:1", 0, "refused 5"),
    TAKE("1@5 7:9", "0@9", "basic 4000000000", 0, "1@5 7:9"),
    TAKE("1@5 7:9", "0@5", "rows A/8:1", 0, "1@5 7:9"),
    TAKE("1@5 7:9", "0@9", "rows 0/5:4000000000", 0, "1@5 7:9"),
    TAKE("1@5 7:9", "0@9", "rows 0/8:1", 0, "refused 7"),
    TAKE("1@5 7:9", "0@9", "rows 0/7:10", 0, "refused 6"),
    TAKE("1@5 7:9 9:9", "0@9", "rows 0/7:10 0/8:1", 0, "refused 6"),
    TAKE("1@5 7:9 9:9", "0@9", "rows 0/6:1 0/7:10", 0, "refused 7"),
    TAKE("1@5 7:4", "0@9", "rows 0/7:1", 0, "0@5"),
    TAKE("1@5 7:5", "0@9", "rows 0/7:1", 0, "1@5 7:4"),
    TAKE("3@5/A 7:4", "0@9", "rows A/7:1", 0, "2@5/A"),
    TAKE("1@5 7:9", "1@8 9:8", "rows 0/9:4", 0, "1@5 7:9 9:4"),
    ABSENT_TAKE("1@5 7:9", "rows 0/8:1", "1@5 7:9"),

    /* splitting a key's bytes: at the base, whatever their number is */
    OF_KEY("1@5 7:10 9:5", 0, "none"),
    OF_KEY("0@5", 3, "rows 0/5:3"),
    OF_KEY("0@5/A", 3, "rows 0/5:3"),
    OF_KEY("2@5/A", 3, "rows A/5:3"),
    OF_KEY("3@5/z 7:10 9:5", 20, "rows z/5:20"),
    OF_KEY("1@5 7:1", 4294967292, "rows 0/5:4294967292"),
    OF_KEY("1@5 7:1", 4294967293, "rows 0/5:4294967293"),
    OF_KEY("3@5/A 7:1", 4294967295, "rows A/5:4294967295"),

    /* splitting a value's bytes */
    OF_VALUE("1@5 7:10 9:5", 0, "none, visited 0"),
    OF_VALUE("0@5", 0, "none, visited 0"),
    OF_VALUE("0@5/A", 4294967295, "rows 0/5:4294967295, visited 0"),
    OF_VALUE("2@5/A", 4294967295, "rows A/5:4294967295, visited 0"),
    OF_VALUE("3@5/z 7:10 9:5", 20, "rows z/5:11 z/7:7 z/9:2, visited 2"),
    OF_VALUE("1@5 7:4", 1, "rows 0/7:1, visited 1"),
    OF_VALUE("1@5 7:3", 4294967292, "rows 0/5:4294967292 0/7:0, visited 1"),
    OF_VALUE("1@5 7:4294967295", 4294967292, "rows 0/7:4294967292, visited 1"),
    /* the top three amounts, which the original cannot split */
    OF_VALUE("1@5 7:1", 4294967293, "rows 0/5:4294967293 0/7:0, visited 1"),
    OF_VALUE("1@5 7:1", 4294967294, "rows 0/5:4294967294 0/7:0, visited 1"),
    OF_VALUE("1@5 7:1", 4294967295, "rows 0/5:4294967295 0/7:0, visited 1"),
    OF_VALUE("1@5 7:4294967295", 4294967293, "rows 0/5:1 0/7:4294967292, visited 1"),
    OF_VALUE("1@5 7:10 9:4294967295", 4294967294, "rows 0/7:2 0/9:4294967292, visited 2"),
    OF_VALUE("3@5/A 7:1", 4294967295, "rows A/5:4294967295 A/7:0, visited 1"),
    TAKE("1@5 7:1", "0@9", "rows 0/5:4294967293 0/7:0", 0, "0@5"),
    TAKE("1@5 7:10 9:4294967295", "0@9", "rows 0/7:2 0/9:4294967292", 0, "1@5 7:8"),

    /* sums */
    PLUS_BOTH("none", "none", "none"),
    PLUS_BOTH("none", "basic 0", "basic 0"),
    PLUS_BOTH("none", "rows A/7:1 B/2:3", "rows A/7:1 B/2:3"),
    PLUS_BOTH("basic 4", "none", "basic 4"),
    PLUS_BOTH("rows A/7:1", "none", "rows A/7:1"),
    PLUS_BOTH("rows", "rows", "rows"),
    PLUS_BOTH("basic 4", "basic 5", "basic 9"),
    PLUS_BOTH("basic 4294967295", "basic 1", "basic 4294967295"),
    PLUS_BOTH("rows A/7:1 B/2:3", "rows 0/9:1 A/6:2 A/7:4294967295 C/1:0", "rows 0/9:1 A/6:2 A/7:4294967295 B/2:3 C/1:0"),
    PLUS_BOTH("rows A/7:1", "basic 0", "rows 0/65535:0 A/7:1"),
    PLUS_BOTH("rows 0/65535:4294967290 A/7:1", "basic 6", "rows 0/65535:4294967295 A/7:1"),
    PLUS_BOTH("basic 4", "rows A/7:1", "rows 0/65535:4 A/7:1"),
    PLUS("basic 4", "rows 0/65535:5 A/7:1", 0, "rows A/7:1"),
    PLUS("basic 4", "rows 0/65535:5 A/7:1", 65535, "rows 0/65535:9 A/7:1"),
    TOTAL("none", "0", "0"),
    TOTAL("basic 0", "0", "0"),
    TOTAL("basic 4294967295", "1", "4294967295"),
    TOTAL("rows", "0", "0"),
    TOTAL("rows A/7:0 B/2:0", "0", "0"),
    TOTAL("rows A/7:0 B/2:3 C/1:4", "1", "7"),
    TOTAL("rows A/7:4294967290 B/2:5", "1", "4294967295"),
    TOTAL("rows A/7:4294967290 B/2:6", "1", "refused 9"),
    BAD_ROWS("rows A/7:1 A/7:1"),
    BAD_ROWS("rows A/7:1 A/6:1"),
    BAD_ROWS("rows B/7:1 A/8:1"),

    /* repairing: what is canonical comes back */
    REPAIR_OLD("", ""),
    REPAIR_OLD("00FFFF", "00FFFF"),
    REPAIR_OLD("0100050007AC02", "0100050007AC02"),
    REPAIR_OLD("02" Z "0005", "02" Z "0005"),
    REPAIR_OLD("03" A "000500070A000905", "03" A "000500070A000905"),
    REPAIR_OLD("01FFFEFFFFFFFFFFFF0F", "01FFFEFFFFFFFFFFFF0F"),
    /* heads that are refused */
    REPAIR_OLD("04", "refused 1"),
    REPAIR_OLD("FF0005000701", "refused 1"),
    REPAIR_OLD("00", "refused 2"),
    REPAIR_OLD("0100", "refused 2"),
    REPAIR_OLD("02" A "00", "refused 2"),
    REPAIR_OLD("03" A, "refused 2"),
    /* counts: longer than minimal, above 32 bits in five and in ten bytes, eleven bytes */
    REPAIR_OLD("01000500078100", "010005000701, 3 re-encoded"),
    REPAIR_OLD("0100050007FFFFFFFF8F8080808000", "0100050007FFFFFFFF0F, 3 re-encoded"),
    REPAIR_OLD("010005000780808080808080808000", "010005000700, 3 re-encoded"),
    REPAIR_OLD("0100050007FFFFFFFF10", "000005, 0 kind changed, 3 too large"),
    REPAIR_OLD("010005000780808080808080808001" "000801", "010005000801, 3 too large"),
    REPAIR_OLD("010005000780808080808080808040" "000801", "010005000801, 3 too large"),
    REPAIR_OLD("01000500078080808080808080808000" "000801", "000005, 0 kind changed, 3 tail cut"),
    /* epochs: at and below the base, twice, out of order */
    REPAIR_OLD("010005" "000501" "000401" "000701", "010005000701, 3 not above base, 6 not above base"),
    REPAIR_OLD("01FFFF" "FFFF01", "00FFFF, 0 kind changed, 3 not above base"),
    REPAIR_OLD("010005" "000701" "000702", "010005000702, 3 replaced"),
    REPAIR_OLD("010005" "000901" "000702", "010005" "000702" "000901, 6 moved"),
    REPAIR_OLD("010005" "000901" "00078200", "010005" "000702" "000901, 6 re-encoded, 6 moved"),
    REPAIR_OLD("010005" "000901" "000802" "000903", "010005" "000802" "000903, 3 replaced"),
    REPAIR_OLD("010005" "000801" "000902" "000703" "000804", "010005" "000703" "000804" "000902, 3 replaced, 9 moved, 12 moved"),
    /* a dropped record has the first line that fits, and replaces nothing */
    REPAIR_OLD("010005" "00058080808010" "000701", "010005000701, 3 too large"),
    REPAIR_OLD("010005" "00078080808010" "000701", "010005000701, 3 too large"),
    REPAIR_OLD("010005" "000701" "00078080808010", "010005000701, 6 too large"),
    REPAIR_OLD("010005" "000501" "000502" "000701", "010005000701, 3 not above base, 6 not above base"),
    /* tails */
    REPAIR_OLD("010005" "000701" "00", "010005000701, 6 tail cut"),
    REPAIR_OLD("010005" "000701" "0008", "010005000701, 6 tail cut"),
    REPAIR_OLD("010005" "000701" "000880", "010005000701, 6 tail cut"),
    REPAIR_OLD("010005" "000701" "000780", "010005000701, 6 tail cut"),
    REPAIR_OLD("00000500", "000005, 3 tail cut"),
    REPAIR_OLD("02" A "0005000701", "02" A "0005, 35 tail cut"),
    /* no record is left */
    REPAIR_OLD("010005", "000005, 0 kind changed"),
    REPAIR_OLD("03" Z "0005" "000501" "00", "02" Z "0005, 0 kind changed, 35 not above base, 38 tail cut"),

    /* totals: the same owner, with rows that go, stay and are made */
    REPLACE("totals A/7:10 A/9:5", "3@5/A 7:10 9:5", "3@5/A 7:4 8:6", "totals A/7:4 A/8:6"),
    REPLACE("totals A/7:110 A/9:105", "3@5/A 7:10 9:5", "3@5/A 7:4 8:6", "totals A/7:104 A/8:6 A/9:100"),
    REPLACE("totals 0/9:1 A/7:110 B/7:1", "3@5/A 7:10", "3@6/A 7:20", "totals 0/9:1 A/7:120 B/7:1"),
    /* other owners, also such as differ in the last byte only */
    REPLACE("totals A/7:10 B/7:1", "3@5/A 7:10", "3@5/B 7:10", "totals B/7:11"),
    REPLACE("totals A/7:1 B/7:10", "3@5/B 7:10", "3@5/A 7:10", "totals A/7:11"),
    REPLACE("totals A/7:10 a/7:3", "3@5/A 7:4", "3@5/a 7:4", "totals A/7:6 a/7:7"),
    REPLACE("totals A/7:10", "3@5/A 7:4", "3@5/a 7:4", "totals A/7:6 a/7:4"),
    /* one unowned, and both; owner bytes of unowned flags are not read, and an owner of 32 zeros is told like none */
    REPLACE("totals 0/7:10 A/7:1", "1@5 7:10", "3@5/A 7:10", "totals A/7:11"),
    REPLACE("totals 0/7:1 A/7:10", "3@5/A 7:10", "1@5 7:10", "totals 0/7:11"),
    REPLACE("totals 0/7:300", "1@5 7:300", "1@5 7:350", "totals 0/7:350"),
    REPLACE("totals 0/7:300 A/7:1", "1@5/A 7:300", "1@5/B 7:350", "totals 0/7:350 A/7:1"),
    REPLACE("totals 0/7:300", "1@5 7:300", "3@5/0 7:5", "totals 0/7:5"),
    /* either absent, or both */
    REPLACE("totals", "none", "3@5/A 7:10 9:5", "totals A/7:10 A/9:5"),
    REPLACE("totals z/2:1 A/7:10", "none", "1@5 7:3", "totals 0/7:3 z/2:1 A/7:10"),
    REPLACE("totals A/7:10 A/9:5", "3@5/A 7:10 9:5", "none", "totals"),
    REPLACE("totals A/7:10 A/9:5", "3@5/A 7:4 9:4", "none", "totals A/7:6 A/9:1"),
    REPLACE("totals", "none", "none", "totals"),
    REPLACE("totals A/7:10 A/9:5 B/0:18446744073709551615", "none", "none", "totals A/7:10 A/9:5 B/0:18446744073709551615"),
    /* equal flags change nothing, and flags without records name nothing */
    REPLACE("totals A/7:10 A/9:5", "3@5/A 7:10 9:5", "3@5/A 7:10 9:5", "totals A/7:10 A/9:5"),
    REPLACE("totals A/7:18446744073709551615", "3@5/A 7:4294967295", "3@5/A 7:4294967295", "totals A/7:18446744073709551615"),
    REPLACE("totals A/5:1", "0@5", "2@5/A", "totals A/5:1"),
    REPLACE("totals A/5:1", "2@5/A", "0@5", "totals A/5:1"),
    REPLACE("totals", "none", "2@5/A", "totals"),
    REPLACE("totals A/7:10", "3@5/A 7:10", "2@5/A", "totals"),
    REPLACE("totals", "2@5/A", "3@5/A 7:10", "totals A/7:10"),
    /* counts of 0 change nothing, where there is a row and where there is none */
    REPLACE("totals", "none", "1@5 7:0", "totals"),
    REPLACE("totals 0/7:1", "none", "1@5 6:0 7:0 8:0", "totals 0/7:1"),
    REPLACE("totals", "1@5 7:0", "none", "totals"),
    REPLACE("totals 0/7:1", "1@5 6:0 7:1 8:0", "1@5 6:0 7:0 9:0", "totals"),
    /* rows go at the front, in the middle and at the end */
    REPLACE("totals A/1:1 A/2:2 A/3:3 A/4:4", "3@0/A 1:1", "none", "totals A/2:2 A/3:3 A/4:4"),
    REPLACE("totals A/1:1 A/2:2 A/3:3 A/4:4", "3@0/A 2:2 3:3", "none", "totals A/1:1 A/4:4"),
    REPLACE("totals A/1:1 A/2:2 A/3:3 A/4:4", "3@0/A 1:1 3:3", "none", "totals A/2:2 A/4:4"),
    REPLACE("totals A/1:1 A/2:2 A/3:3 A/4:4", "3@0/A 4:4", "none", "totals A/1:1 A/2:2 A/3:3"),
    /* rows are made at the front, in the middle and at the end */
    REPLACE("totals B/3:3 B/5:5", "none", "1@0 1:7", "totals 0/1:7 B/3:3 B/5:5"),
    REPLACE("totals B/3:3 B/5:5", "none", "3@0/B 2:7 4:8 6:9", "totals B/2:7 B/3:3 B/4:8 B/5:5 B/6:9"),
    REPLACE("totals B/3:3 B/5:5", "none", "3@0/C 1:7 65535:8", "totals B/3:3 B/5:5 C/1:7 C/65535:8"),
    /* as many go as are made, fewer, and more */
    REPLACE("totals A/1:1 A/2:2 B/1:1", "3@0/A 1:1 2:2", "3@0/C 1:1 2:2", "totals B/1:1 C/1:1 C/2:2"),
    REPLACE("totals A/1:1 B/1:1 C/1:1", "3@0/C 1:1", "1@0 1:1 2:2", "totals 0/1:1 0/2:2 A/1:1 B/1:1"),
    REPLACE("totals A/1:1 A/2:2 A/3:3 B/1:1", "3@0/A 1:1 2:2 3:3", "3@0/B 2:4", "totals B/1:1 B/2:4"),
    /* the largest total: 6 behind it, but not where enough is taken before */
    REPLACE("totals 0/7:18446744069414584320", "none", "1@5 7:4294967295", "totals 0/7:18446744073709551615"),
    REPLACE("totals 0/7:18446744069414584321", "none", "1@5 7:4294967295", "refused 6"),
    REPLACE("totals 0/7:18446744073709551615", "none", "1@5 7:0", "totals 0/7:18446744073709551615"),
    REPLACE("totals 0/7:18446744073709551615", "none", "1@5 7:1", "refused 6"),
    REPLACE("totals 0/7:18446744073709551615", "1@5 7:5", "1@5 7:5", "totals 0/7:18446744073709551615"),
    REPLACE("totals 0/7:18446744073709551615", "1@5 7:5", "1@5 7:6", "refused 6"),
    REPLACE("totals 0/7:9 A/7:18446744073709551615", "1@5 7:5", "3@5/A 7:5", "refused 6"),
    REPLACE("totals 0/6:9 0/7:18446744073709551615", "1@5 6:5", "1@5 7:5", "refused 6"),
    /* 14: one short, no row, another owner's or epoch's row, the last record */
    REPLACE("totals 0/7:4", "1@5 7:5", "none", "refused 14"),
    REPLACE("totals", "1@5 7:1", "none", "refused 14"),
    REPLACE("totals 0/7:9 a/7:9", "3@5/A 7:1", "none", "refused 14"),
    REPLACE("totals 0/6:9 0/8:9", "1@5 7:1", "none", "refused 14"),
    REPLACE("totals 0/6:9 0/7:9 0/8:9", "1@5 6:9 7:8 8:10", "none", "refused 14"),
    REPLACE("totals 0/7:4", "1@5 7:5", "1@5 7:5", "refused 14"),
    /* 11 before 14, 14 before 6, and 6 before 10: each is refused also without room for the new row */
    REPLACE("totals A/7:1", "3@5/A 7:2", "1@5", "refused 11"),
    REPLACE("totals A/7:1 A/7:1", "3@5/A 7:2", "3@5/A 7:1", "refused 11"),
    REPLACE("totals A/7:18446744073709551615 A/8:0", "0@5", "3@5/A 7:1", "refused 11"),
    REPLACE("totals A/7:1 A/9:18446744073709551615", "3@5/A 7:2", "3@5/A 8:1 9:1", "refused 14"),
    REPLACE("totals A/9:18446744073709551615", "0@5", "3@5/A 8:1 9:1", "refused 6"),
    BAD_TOTALS("totals A/7:1 A/7:1"),
    BAD_TOTALS("totals A/7:1 A/6:1"),
    BAD_TOTALS("totals B/7:1 A/8:1"),
    BAD_TOTALS("totals a/7:1 A/8:1"),
    BAD_TOTALS("totals A/7:0"),
    BAD_TOTALS("totals A/7:0 A/8:1"),
    BAD_TOTALS("totals A/7:1 A/8:0"),
};
const size_t examples_len = sizeof examples / sizeof *examples;
