/*
 * The Duper reader, the content call, asking by path, the season's summary,
 * corrections and undo, the salvage of a broken line log, and the reader's
 * UTF-8 check, from the archive libduper.a.
 *
 * Every call may be given any bytes, any lengths and any numbers: none of
 * them needs to be checked before. What the caller must see to:
 *   - each pointer points to as many elements as the length after it says,
 *     answer and heights to three (the answer of duper_salvage to two), counts
 *     to four, and eights to one;
 *   - no pointer is null, and each is aligned for its element: the table to 4
 *     bytes; answer, counts, heights and eights to 8. The pointer of an empty
 *     slice may be any such pointer;
 *   - a buffer that a call writes to must not overlap any other that the same
 *     call is given.
 *   - the thread has stack enough: 64 KiB for a reading, a content, a path, a
 *     summary, a salvage or a UTF-8 check, 128 KiB for an undo, 256 KiB for a
 *     correction, beside the caller's own.
 * Nothing is kept between calls, and no memory is taken from the heap. The
 * archive is for x86-64 Linux.
 *
 * The numbers of refusal:
 *    1  the text, or the log, is over 65,536 bytes; place 65536
 *    2  not UTF-8; the place is the length of the longest valid front
 *    3  a malformed or unclosed token or comment; its start
 *    4  the content of a string; the token's start
 *    5  a number that is too wide; the token's start
 *    6  a Temporal value, which isn't served; the tick
 *    7  a token that is not allowed here; its start. Or the text ends early; its length
 *    8  a key that is already in this object; the second key's start
 *    9  too deep: over 32 containers open at once; the opening bracket
 *   10  a value opens with no node left in the table; its start
 *   11  a length in use exceeds its buffer (correction and undo)
 *   12  no such node (correction)
 *   13  the replacement isn't one value (correction)
 *   14  no room in the text (correction and undo)
 *   15  no room in the journal (correction)
 *   16  the resulting text doesn't read (correction and undo)
 *   17  nothing to undo (undo)
 *   18  the journal's last entry is bad (undo)
 *   19  the span isn't one string or key (content call only)
 *   20  the content is longer than the output (content call only)
 *   21  the root is no array, or an element of it no object; the node's number
 *       (summary only)
 *   23  no child for a step of the path; the step's number, from 0 (path only)
 *   27  the list is shorter than the log has lines (salvage only)
 *   28  what is kept has no room: in the output, in 65,536 bytes or in the
 *       table's nodes (salvage only)
 * From 11 on the place is 0, but for 21 and 23. 22 and 24 to 26 are given by no
 * call here.
 *
 * The table has twelve words for each node, nodes in order of their first
 * byte, the root being node 0; ends are one past the last byte:
 *    0      kind: 1 object, 2 array, 3 tuple, 4 text, 5 bytes, 6 integer,
 *           7 decimal, 8 false, 9 true, 10 null
 *    1      the parent's number; 4294967295 for the root
 *    2, 3   start and end of the value, its identifier and bracket included
 *    4, 5   start and end of the key token; 0, 0 if none
 *    6, 7   start and end of the identifier's name; 0, 0 if none
 *    8      the number of the first node after this one's descendants
 *    9, 10  object, array, tuple: the count of children, and 0
 *           text, bytes: start and end of the string token
 *           integer: low and high half of the two's complement
 *           decimal: low and high half of m, the top bit set for a minus
 *           else 0, 0
 *   11      text, bytes: the content's length in bytes. decimal: the power of
 *           ten plus 1000. Else 0
 * The words after the last node are 0.
 *
 * A space or a whole UTF-8 comment put right before or after a token, a line
 * comment with its line feed, changes no data, if the text stays within 65,536
 * bytes: the nodes are the same in all words but places, and a place moves by
 * the bytes put before the byte it names, an end with the last byte of its span.
 */
#ifndef DUPER_H
#define DUPER_H

#include <stddef.h>
#include <stdint.h>

#ifdef __cplusplus
extern "C" {
#endif

/*
 * Reads the text into the table. table_len counts 32-bit words: a table of
 * 12 * n words has room for n nodes, and 4,096 nodes are the most.
 *
 * Answers the node count, from 1 to 4096, if the text is taken; else the
 * refusal, 1 to 10, times 4294967296 plus its place. A refused text leaves
 * every word of the table 0.
 */
uint64_t duper_read(const uint8_t *text, size_t text_len,
                    uint32_t *table, size_t table_len);

/*
 * Writes the content of the string or key that stands in the text from start
 * to before end at the front of out; the rest of out stays. Such a span is in
 * words 9 and 10 of a string's node and in words 4 and 5 of a key's.
 *
 * Answers the count of bytes written; or 19 or 20 times 4294967296, and then
 * nothing is written. 19 is also for a span that runs backwards, past the
 * text or over 65,536 bytes.
 */
uint64_t duper_content(const uint8_t *text, size_t text_len,
                       uint64_t start, uint64_t end,
                       uint8_t *out, size_t out_len);

/*
 * Reads the text into the table, as duper_read does, and follows a path from
 * the root, such as balls.3.height_mm.
 *
 * A path is any bytes, of any length: steps with a dot after each but the last.
 * The empty path has no step and leads to the root; any other has one step more
 * than it has dots, and a step may be empty: a single dot is two empty steps.
 * In an object a step is the content of a key, byte for byte, however the key
 * is written. In an array or tuple it is an index from 0 in decimal digits,
 * without leading zeros, and of any length; 00, +1, -0 and 1_0 are none, nor is
 * an empty step. Other values have no children. Identifiers are ignored. A key
 * with a dot in it can't be reached, nor the value of an empty key at the root.
 *
 * Answers the node's number, from 0 to 4095; else the refusal times 4294967296
 * plus its place: 1 to 10, the text isn't taken, and then every word of the
 * table is 0; or 23 and the number of the first step, from 0, that has no child
 * to go to. After 23, as after a success, the table is the reading.
 */
uint64_t duper_find(const uint8_t *text, size_t text_len,
                    uint32_t *table, size_t table_len,
                    const uint8_t *path, size_t path_len);

/*
 * Reads the text into the table, as duper_read does, and summarizes the heights
 * of its records. The root must be an array, and each of its elements, a record,
 * an object. Identifiers are ignored, around these and around a height.
 *
 * The height of a record is the value of its key height_mm, a number of
 * millimetres. The key is known by its content, however it is written; a key
 * further in, in one of the record's values, is none of its own. The height is
 *   measured  if it is an integer or decimal, and an exact whole number of
 *             micrometres from 0 to 10,000,000: 412.5 is 412500, 0.250e1 is
 *             2500, and -0.0 is 0;
 *   null      if it is null, which is not 0;
 *   absent    if the record has no such key;
 *   unfit     if it is anything else: 0.0001, -1, 10000.001, true, "412.5".
 *
 * Answers 0 if the records were summarized; else the refusal times 4294967296
 * plus its place: 1 to 10, the text isn't taken, and then every word of the
 * table is 0; or 21 and the number of a node: 0, the root, if it is no array,
 * else that of the first element of the root that is no object. After 21, as
 * after a success, the table is the reading.
 *
 * counts[0] to counts[3] are how many heights are measured, null, absent and
 * unfit, in this order. They add up to the number of records, word 9 of the
 * root. heights[0] to heights[2] are the least, the greatest and the mean of
 * the measured heights, in micrometres. The mean is their exact sum as a double
 * divided once by their count as a double.
 *
 * A refusal leaves counts and heights as they were. If no height is measured,
 * so that counts[0] is 0, heights are left as they were: look at counts[0]
 * before them.
 */
uint64_t duper_summary(const uint8_t *text, size_t text_len,
                       uint32_t *table, size_t table_len,
                       uint64_t counts[4], double heights[3]);

/*
 * Replaces one value of a text. The text is the first used bytes of its
 * buffer; the rest is room for it to grow, up to 65,536 bytes. The journal
 * notes what was replaced, and kept of its bytes are in use, 0 at first. Each
 * call is to be given the buffers as the last one left them and the lengths it
 * answered.
 *
 * The text is read into the table first: node is a number of that reading. The
 * replacement must be one value from its first byte to its last, with no space
 * or comment around it; for node 0 an object, array or tuple, bare or in one
 * identifier. It takes the place of words 2 to 3 of the node. Bytes that the
 * text no longer uses become 0, later ones stay.
 *
 * The journal gains an entry: the old bytes, then three 32-bit numbers, low
 * byte first: the value's start, the replacement's length, and the length of
 * the old bytes plus 12, which is the whole entry. Its other bytes stay.
 *
 * Answers 0 if the correction was made; else the refusal times 4294967296 plus
 * its place, and then text and journal stay as they are. The first of these
 * that holds: 11; 1 to 10, the present text isn't taken; 12; 13; 14, the new
 * length is over text_len or 65,536; 15, kept and the entry are longer than
 * journal_len; 16.
 *
 * answer[0] is the node count, answer[1] the text's length in use, answer[2]
 * the journal's; after a refusal the two lengths are those given. The table is
 * the reading of the text as it then stands; after 1 to 11 every word of it and
 * the node count are 0.
 */
uint64_t duper_correct(uint8_t *text, size_t text_len, size_t used,
                       uint8_t *journal, size_t journal_len, size_t kept,
                       uint32_t *table, size_t table_len,
                       size_t node,
                       const uint8_t *replacement, size_t replacement_len,
                       uint64_t answer[3]);

/*
 * Takes back the correction that the journal's last entry notes: puts the old
 * bytes back in place of the replacement. Bytes that the text no longer uses
 * become 0. The entry is cut off by the length in answer[2] alone; the
 * journal's bytes all stay. Any journal may be handed in.
 *
 * Answers, and leaves the table, as duper_correct does. The first refusal that
 * holds: 11; 1 to 10; 17, kept is 0; 18, kept is under 12, or the entry's third
 * number is under 12 or over kept, or its start plus its replacement's length
 * is over used; 14; 16.
 */
uint64_t duper_undo(uint8_t *text, size_t text_len, size_t used,
                    uint8_t *journal, size_t journal_len, size_t kept,
                    uint32_t *table, size_t table_len,
                    uint64_t answer[3]);

/*
 * Salvages a log that has a root value in each line, as of a rig that died in
 * the middle of one: keeps the lines that read by themselves, as one array.
 *
 * A line is what stands before a line feed, 0A, or behind the last one if that
 * is not empty; so an empty line counts, and a carriage return stays in its
 * line, where it is a space. A line is kept if duper_read would take it with
 * this table and with at most 31 containers open at once: the array is one more.
 *
 * At the front of out are written [ and 0A, then each kept line as it stands,
 * 0A, a comma and 0A, then ]; at the front of verdicts a number for each line:
 * 0 if it is kept, else its refusal, from 2 to 10. Later places of both stay.
 * What is written always reads with this table: the root is an array, and its
 * children are the kept lines' values in order.
 *
 * Answers 0, and then answer[0] is the count of bytes written and answer[1] the
 * number of lines; else the refusal times 4294967296 plus its place, and then
 * out and verdicts stay as they are and both numbers are 0. The first of these
 * that holds: 1; 27; 28, the bytes would be over out_len or 65,536, or the nodes
 * of what is written over those that the table has room for. No line is dropped
 * to fit. With no kept line three bytes are written, of one node.
 *
 * The table is what the lines are read into. Every word of it is 0 afterwards,
 * whatever the answer.
 */
uint64_t duper_salvage(const uint8_t *log, size_t log_len,
                       uint32_t *table, size_t table_len,
                       uint8_t *out, size_t out_len,
                       uint8_t *verdicts, size_t verdicts_len,
                       uint64_t answer[2]);

/*
 * Checks bytes as UTF-8 (RFC 3629: no surrogates, no overlong forms, nothing
 * above U+10FFFF), as a reading does before it looks for tokens. Any number of
 * bytes may be handed in; 65,536 is no limit here. Wherever the check stands at
 * a character's start and the next eight bytes are all below 80 hex, it passes
 * over these eight in one step, else over one character.
 *
 * Answers the length of the longest front that is UTF-8: text_len, if all of
 * the text is. A character that the end cuts off is no part of the front.
 * Nothing is refused.
 *
 * eights[0] is the number of eights passed over up to where the front ends.
 */
uint64_t duper_utf8(const uint8_t *text, size_t text_len, uint64_t eights[1]);

#ifdef __cplusplus
}
#endif

#endif
