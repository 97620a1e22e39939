// The proved register for programs in C11 and C++17: four functions on words that the caller lends, two that run a whole schedule
// file, and one that counts the replies of such runs in a duty sheet.
//
// A register has m cells (1 to 32) and n handlers (1 to 16). A handler runs one transaction at a time, in five steps: begin, read a
// cell, write a cell, try to commit, give up. Every reply, and every word left behind, is proved to be what docs/PROMISES.md promises, for
// any words, handler, code and value: bad input is refused by number and changes nothing.
//
// Link with target/staticlib/libgateway.a, which `tools/build gateway` proves and builds for x86-64 Linux. It needs nothing of the
// C library but memcpy and memset. examples/gateway.c, examples/run.c and examples/sheet.c are whole programs.
//
// docs/RULES.md has the rules, docs/CODES.md every step code, docs/REPLIES.md every number that is given; zidlemowo_text says in words what
// it means, for a log.
//
// A transaction that is open stays open until a step ends it, and a later try of that handler commits what was written in it. So
// where a handler's work comes to nothing, give up: that ends the transaction for certain, with no cell changed, and the handler may
// begin anew.
//
// The words. They belong to the caller, who may put them anywhere and copy, move, keep or free them between calls. They are lent
// for the time of a call: nothing is kept, allocated or freed. A register lies in front of them (docs/LAYOUT.md); words beyond it
// are never changed. The caller sees to it that `words` points to `length` words, aligned as a uint32_t is, that may be read and
// written; it may be NULL where `length` is 0. Nothing else is asked of them: not that they were opened, nor that they are a register at all.
//
// Threads. No function takes a lock, and none keeps anything outside the words. One register takes one step at a time: two calls on
// the same words must not overlap, an opening among them, and nothing else may read or write the words during a call. Calls on
// different words, or into different outputs, may overlap. A sheet's words are as a register's in all of this, and so are those of a
// row's reports. A row of steps is one call: no other handler's step comes between its own.
#ifndef ZIDLEMOWO_H
#define ZIDLEMOWO_H

#include <stddef.h> // size_t: how many words or bytes are lent
#include <stdint.h> // uint32_t: a word; uint64_t: the reply to a step; uint8_t: a byte of a file or of a text

// The version of this header and its library: of its functions, its numbers, and the layout of the words of a register, a row and a
// sheet.
//
// Since 0.5.0 aborts 1, 2 and 3 name a cell. A report of a row has five words, the last of them the cell, where it had four: a caller who lends
// words for reports by ZIDLEMOWO_REPORT_WORDS has to be compiled anew, and nothing else; whoever wrote 4 has to write 5. The detail of an abort
// is cell * 65,536 + reason, where it was the reason: take zidlemowo_reason in the place of zidlemowo_detail. The texts of whole runs have
// `abort 1 cell 0` for `abort 1`. The words of registers and of sheets that were kept go on as they are.
//
// Since 0.4.0 a read of a cell that no commit has written replies ZIDLEMOWO_UNSET, a kind of its own, and no longer the value 0, so that it
// is told from a cell that was written as 0. A caller who takes every reply to a read that is no abort for a value has to look at the
// kind; where both are to be 0 as before, the detail, which is 0 too, may be taken. Words that were kept go on as they are.
#define ZIDLEMOWO_VERSION "0.5.0"
#define ZIDLEMOWO_VERSION_MAJOR 0 // the parts, for the preprocessor
#define ZIDLEMOWO_VERSION_MINOR 5
#define ZIDLEMOWO_VERSION_PATCH 0

#ifdef __cplusplus
extern "C" { // in C++ the functions keep their C names
#endif

// How large things may be.
enum {
    ZIDLEMOWO_MOST_CELLS = 32,        // the most cells: m is 1 to 32
    ZIDLEMOWO_MOST_HANDLERS = 16,     // the most handlers: n is 1 to 16
    ZIDLEMOWO_MOST_WORDS = 2642,      // the words of the largest register, m = 32 and n = 16
    ZIDLEMOWO_MOST_NUMBER = 65535,    // the largest number of a cell, a handler or a transaction
    ZIDLEMOWO_STEP_WORDS = 3,         // the words of a step in a row: handler, code, value
    ZIDLEMOWO_REPORT_WORDS = 5,       // the words of a step's report: handler, code, kind, detail, cell
    ZIDLEMOWO_ABORT_CELL = 65536,     // what the cell of an abort counts in its detail: cell * 65,536 + reason
    ZIDLEMOWO_MOST_FILE = 65535,      // the most bytes of a schedule file: a longer one is refused with 30
    ZIDLEMOWO_MOST_PRINTED = 2230434, // no text of a whole run has more bytes, whatever the file
    ZIDLEMOWO_SHEET_WORDS = 96,       // the words of a duty sheet: a row for each of 16 handlers, however many a file has
    ZIDLEMOWO_SHEET_COLUMNS = 6,      // the words of a row: handler h's begins at word 6h
};

// The largest count with which a duty sheet still takes a file. It is no int, so it is no constant of an enum.
#define ZIDLEMOWO_SHEET_MOST UINT32_C(4294000000)

// The words of a register of m cells and n handlers, both in range, as a constant, to declare an array with: 2 + m(m+1) + n(3+3m).
#define ZIDLEMOWO_WORDS(m, n) (2u + (m) * ((m) + 1u) + (n) * (3u + 3u * (m)))

// Step codes, which are those of docs/CODES.md. Every other number is unknown and is refused with 15.
enum {
    ZIDLEMOWO_BEGIN = 0,     // begin: opens the handler's transaction
    ZIDLEMOWO_TRY = 1,       // try to commit: ends the transaction with a commit or an abort
    ZIDLEMOWO_GIVE_UP = 2,   // give up: ends the transaction with an abort, whatever it read and wrote
    ZIDLEMOWO_READ = 32,     // 32 to 63 read cell (code - 32): this is cell 0's, zidlemowo_read_code gives any cell's
    ZIDLEMOWO_WRITE = 64,    // 64 to 95 write cell (code - 64): this is cell 0's, zidlemowo_write_code gives any cell's
    ZIDLEMOWO_NO_CODE = 256, // stands for no step, being above 255: what a cell that no code names, 32 or above, gets
};

// Where each word of a step stands in a row, from the step's first one on.
enum {
    ZIDLEMOWO_STEP_HANDLER = 0, // the handler whose step it is
    ZIDLEMOWO_STEP_CODE = 1,    // the step code
    ZIDLEMOWO_STEP_VALUE = 2,   // what a write writes; no other step looks at it
};

// Where each word of a report stands, from the report's first one on.
enum {
    ZIDLEMOWO_REPORT_HANDLER = 0, // the step's handler, as it was given
    ZIDLEMOWO_REPORT_CODE = 1,    // the step's code, as it was given, also above 255
    ZIDLEMOWO_REPORT_KIND = 2,    // the kind of the reply
    ZIDLEMOWO_REPORT_DETAIL = 3,  // its detail: the value read, the reason of an abort without its cell, the refusal, or 0
    ZIDLEMOWO_REPORT_CELL = 4,    // the cell that an abort names, or 0
};

// Kinds of reply to a step.
enum {
    ZIDLEMOWO_OK = 0,      // ok: a begin or a write was done; the detail is 0
    ZIDLEMOWO_VALUE = 1,   // value: what a read found; the detail is the value
    ZIDLEMOWO_COMMIT = 2,  // commit: a try stored what the transaction wrote and ended it; the detail is 0
    ZIDLEMOWO_ABORT = 3,   // abort: the transaction is ended, nothing of it is kept; the detail is cell * 65,536 + reason
    ZIDLEMOWO_REFUSED = 4, // refused: nothing is changed; the detail is the refusal
    ZIDLEMOWO_UNSET = 5,   // unset: a read found that no commit had written the cell, nor this transaction; the detail is 0
};

// Reasons of an abort, which are outcomes and no mistakes. After 1 or 2 the transaction may be begun anew. 5 is what a give up gives, and
// nothing else does. No reason is 4. Each of 1, 2 and 3 names a cell: of those that meet its condition the one with the lowest number.
enum {
    ZIDLEMOWO_TORN = 1,      // a first read: the cell depends on a later version of a cell already read, which is the one named
    ZIDLEMOWO_OVERTAKEN = 2, // a try: a cell that was read, and is named, has another number now
    ZIDLEMOWO_SPENT = 3,     // a try, no cell overtaken: a written cell's number stands at 65,535, and so for good; it is named
    ZIDLEMOWO_GAVE_UP = 5,   // a give up: the handler has ended its transaction itself; no cell is named, and 0 stands for it
};

// The columns of a duty sheet: where each count stands in a handler's row.
enum {
    ZIDLEMOWO_SHEET_BEGUN = 0,     // transactions begun
    ZIDLEMOWO_SHEET_COMMITTED = 1, // transactions committed
    ZIDLEMOWO_SHEET_TORN = 2,      // transactions aborted by reason 1
    ZIDLEMOWO_SHEET_OVERTAKEN = 3, // transactions aborted by reason 2
    ZIDLEMOWO_SHEET_SPENT = 4,     // transactions aborted by reason 3
    ZIDLEMOWO_SHEET_GAVE_UP = 5,   // transactions aborted by reason 5
};

// Refusals. A step is checked in the order 10, 15, 11, 12, then 13 or 14; a row in the order 10, 42; an opening in the order 20, 21; a
// file for a sheet in the order 21, 30, 15, 41. The first that holds is given. 30, 32 and 33 stand in the texts of whole runs; of these,
// a sheet gives 30.
enum {
    ZIDLEMOWO_NOT_WELL_FORMED = 10,  // a step or a row: the words are no well-formed register, or too short for one
    ZIDLEMOWO_NO_HANDLER = 11,       // a step: handler n or above
    ZIDLEMOWO_NO_CELL = 12,          // a step: read or write of cell m or above
    ZIDLEMOWO_ALREADY_OPEN = 13,     // a step: begin while open
    ZIDLEMOWO_NOT_OPEN = 14,         // a step: read, write, try or give up while idle
    ZIDLEMOWO_UNKNOWN_STEP = 15,     // a step: a code that stands for no step; a file: also a write cut short
    ZIDLEMOWO_OUT_OF_RANGE = 20,     // an opening: m or n out of range
    ZIDLEMOWO_TOO_SHORT = 21,        // an opening: a buffer shorter than the register; a sheet: one shorter than 96 words
    ZIDLEMOWO_BAD_FILE = 30,         // a schedule file: too long, m or n out of range, or a bad table
    ZIDLEMOWO_USED_UP = 32,          // an order place: the handler's script is used up
    ZIDLEMOWO_TOO_MANY_COMMITS = 33, // the judge: a try that would be the 65th commit
    ZIDLEMOWO_SHEET_FULL = 41,       // a sheet: it holds a count above 4,294,000,000
    ZIDLEMOWO_NO_ROOM = 42,          // a row: its reports would pass the end of the words for them
};

// The words that a register of m cells and n handlers needs; 0 where m or n is out of range.
uint32_t zidlemowo_length(uint32_t m, uint32_t n);

// Opens a register of m cells and n handlers in front of `length` words, whatever they hold: all values, numbers, phases, sets and
// copies are 0, so that every cell is unset. Gives 0 for ready, or the refusal, ZIDLEMOWO_OUT_OF_RANGE or ZIDLEMOWO_TOO_SHORT, which
// changes nothing.
uint32_t zidlemowo_open(uint32_t *words, size_t length, uint32_t m, uint32_t n);

// Takes the step of a handler (0 to n - 1) on the register in front of `length` words. `value` is what a write writes; no other
// step looks at it. Gives kind * 2^32 + detail, which zidlemowo_kind and zidlemowo_detail take apart, and where it is an abort zidlemowo_reason
// and zidlemowo_cell too.
uint64_t zidlemowo_step(uint32_t *words, size_t length, uint32_t handler, uint32_t code, uint32_t value);

// Takes a row of steps, one after another, on the register in front of `length` words, and reports each. The replies, and the words that
// are left, are those of the same steps by zidlemowo_step; but the words are tested once, and not before each step. So a burst of many
// steps costs far less than as many calls.
//
// `steps` are ZIDLEMOWO_STEP_WORDS words for each step: its handler, its code and its value. Words of a last step that is cut short are
// ignored. From word `place` of `reports` on each step has its ZIDLEMOWO_REPORT_WORDS words, in the order of the steps: its handler and its
// code as they were given, the kind and the detail of its reply, and the cell that it names. An abort's detail is its reason here, since the
// cell has a word of its own. A step that is refused is reported too, as ZIDLEMOWO_REFUSED with the refusal, and the row goes on. The words of
// `reports` in front of the place and behind the last report are never changed.
//
// Gives 0, or the refusal, which changes nothing: ZIDLEMOWO_NOT_WELL_FORMED, or ZIDLEMOWO_NO_ROOM exactly where the place and
// ZIDLEMOWO_REPORT_WORDS for each step come to more than `reports_length`. The sum wraps for no place, and a place beyond the end is refused
// also where there is no step. Both are found before the first step. The number and every word of all three are proved, for any words,
// steps and place.
//
// The steps are read only, and no two of the three may overlap; each may be NULL where its length is 0.
uint32_t zidlemowo_row(uint32_t *words, size_t length, const uint32_t *steps, size_t steps_length, uint32_t *reports,
                       size_t reports_length, size_t place);

// Runs a whole schedule file from a fresh register, and gives the text that the program `runner` prints of it: a header, a line for
// each order place and one for each cell, or the one line of a refused file. It is as with snprintf, but for the byte 0 at the end,
// which there is not: the length of the whole text is given, whether it fits or not; `output` begins with as much of it as fits, and
// its bytes behind are untouched. So a first call with an output of length 0 tells how many bytes to lend. The length and every byte
// of the output are proved, for any file and any output.
//
// Any `file_length` bytes are a file, and any `output_length` bytes an output; either may be NULL where its length is 0. The file is
// read only, and the two must not overlap. Nothing is allocated: the register's words, some 11 KB, are on the stack during the call.
size_t zidlemowo_run(const uint8_t *file, size_t file_length, uint8_t *output, size_t output_length);

// Runs a whole schedule file by the judge, and gives the text that the program `judged` prints of it: what zidlemowo_run gives, up to
// a 65th commit, where the text ends with a line `refused 33`. In all else it is as zidlemowo_run. The judge's words, some 22 KB, are
// on the stack during the call.
size_t zidlemowo_judge(const uint8_t *file, size_t file_length, uint8_t *output, size_t output_length);

// Adds a schedule file to the duty sheet in front of `length` words. The file is run from a fresh register, and each reply of its run
// is counted in its handler's row: a begin that is done, a commit, and an abort by its reason. Gives 0, or the refusal, which changes
// nothing: ZIDLEMOWO_TOO_SHORT for fewer than 96 words, ZIDLEMOWO_BAD_FILE, ZIDLEMOWO_UNKNOWN_STEP, or ZIDLEMOWO_SHEET_FULL where any
// count of the 16 handlers is above ZIDLEMOWO_SHEET_MOST already. The reply and every word are proved, for any words and any file.
//
// A fresh sheet is 96 words of 0. Any others are a sheet too, with the counts that they hold; so a sheet may be kept and taken up again.
// Words behind the 96 are never changed. The file is read only, and the two must not overlap; either may be NULL where its length is 0.
uint32_t zidlemowo_sheet(uint32_t *counts, size_t length, const uint8_t *file, size_t file_length);

// The kind of a reply to a step: ZIDLEMOWO_OK to ZIDLEMOWO_UNSET.
static inline uint32_t zidlemowo_kind(uint64_t reply) { return (uint32_t)(reply >> 32); }

// The detail of a reply to a step: the value read, the reason of an abort with its cell, the refusal, or 0.
static inline uint32_t zidlemowo_detail(uint64_t reply) { return (uint32_t)(reply & UINT32_MAX); }

// The reason of an abort; 0, which is none, where the reply to a step is no abort.
static inline uint32_t zidlemowo_reason(uint64_t reply) {
    return zidlemowo_kind(reply) == ZIDLEMOWO_ABORT ? zidlemowo_detail(reply) % ZIDLEMOWO_ABORT_CELL : 0;
}

// The cell that an abort names. It is 0 also where none is named: with ZIDLEMOWO_GAVE_UP, and where the reply to a step is no abort.
static inline uint32_t zidlemowo_cell(uint64_t reply) {
    return zidlemowo_kind(reply) == ZIDLEMOWO_ABORT ? zidlemowo_detail(reply) / ZIDLEMOWO_ABORT_CELL : 0;
}

// The code of a cell in the range that begins with `first`. A cell of 32 or above would get the code of another step: it gets none, and
// so its read or write is refused with 15, where that of a cell from m to 31 is refused with 12.
static inline uint32_t zidlemowo_cell_code(uint32_t first, uint32_t cell) {
    return cell < (uint32_t)ZIDLEMOWO_MOST_CELLS ? first + cell : (uint32_t)ZIDLEMOWO_NO_CODE;
}

// The code that reads a cell.
static inline uint32_t zidlemowo_read_code(uint32_t cell) { return zidlemowo_cell_code(ZIDLEMOWO_READ, cell); }

// The code that writes a cell.
static inline uint32_t zidlemowo_write_code(uint32_t cell) { return zidlemowo_cell_code(ZIDLEMOWO_WRITE, cell); }

// The texts are those of docs/REPLIES.md, "In words", with which they are compared. Each lives as long as the program.

// The text of any number that stands for nothing.
static inline const char *zidlemowo_no_text(void) { return "a number that stands for nothing"; }

// A reason of an abort in words, for a log.
static inline const char *zidlemowo_reason_text(uint32_t reason) {
    switch (reason) {
    case ZIDLEMOWO_TORN: return "this cell depends on a newer version of a cell that was read before";
    case ZIDLEMOWO_OVERTAKEN: return "a cell that was read has been written since";
    case ZIDLEMOWO_SPENT: return "a cell to be written has no version number left";
    case ZIDLEMOWO_GAVE_UP: return "the handler gave the transaction up";
    default: return zidlemowo_no_text();
    }
}

// A refusal in words, for a log: that of a step, or the number that a row, an opening or a sheet gives where it is not 0.
static inline const char *zidlemowo_refusal_text(uint32_t refusal) {
    switch (refusal) {
    case ZIDLEMOWO_NOT_WELL_FORMED: return "the words are no well-formed register, or too few for one";
    case ZIDLEMOWO_NO_HANDLER: return "there is no such handler";
    case ZIDLEMOWO_NO_CELL: return "there is no such cell";
    case ZIDLEMOWO_ALREADY_OPEN: return "the handler has an open transaction already";
    case ZIDLEMOWO_NOT_OPEN: return "the handler has no open transaction";
    case ZIDLEMOWO_UNKNOWN_STEP: return "no step has this code";
    case ZIDLEMOWO_OUT_OF_RANGE: return "a register has 1 to 32 cells and 1 to 16 handlers";
    case ZIDLEMOWO_TOO_SHORT: return "too few words for a register of this size, or for a sheet";
    case ZIDLEMOWO_BAD_FILE: return "these bytes are no schedule file";
    case ZIDLEMOWO_USED_UP: return "the script of this handler is used up";
    case ZIDLEMOWO_TOO_MANY_COMMITS: return "the judge notes 64 commits, and this would be the 65th";
    case ZIDLEMOWO_SHEET_FULL: return "a count of the sheet is above 4,294,000,000";
    case ZIDLEMOWO_NO_ROOM: return "too few words for the reports of this row";
    default: return zidlemowo_no_text();
    }
}

// An abort in words, for a log, by its detail. The cell, which the words leave out, has to be one that there can be, and 0 where none is named;
// so the detail of a reply may be given, and that of a report, which is the reason alone.
static inline const char *zidlemowo_abort_text(uint32_t detail) {
    const uint32_t reason = detail % ZIDLEMOWO_ABORT_CELL, cell = detail / ZIDLEMOWO_ABORT_CELL;
    const uint32_t cells = reason == ZIDLEMOWO_GAVE_UP ? 1 : ZIDLEMOWO_MOST_CELLS;
    return cell < cells ? zidlemowo_reason_text(reason) : zidlemowo_no_text();
}

// A reply to a step in words, for a log, by its kind and its detail, or by those of a report. Of a value it says that one was read; which it is,
// the detail says. Of an abort it says why; the cell is zidlemowo_cell's, or the report's, to say.
static inline const char *zidlemowo_text(uint32_t kind, uint32_t detail) {
    switch (kind) {
    case ZIDLEMOWO_OK: return detail == 0 ? "done" : zidlemowo_no_text();
    case ZIDLEMOWO_VALUE: return "a value was read";
    case ZIDLEMOWO_COMMIT: return detail == 0 ? "committed" : zidlemowo_no_text();
    case ZIDLEMOWO_ABORT: return zidlemowo_abort_text(detail);
    case ZIDLEMOWO_REFUSED: return zidlemowo_refusal_text(detail);
    case ZIDLEMOWO_UNSET: return detail == 0 ? "an unset cell was read" : zidlemowo_no_text();
    default: return zidlemowo_no_text();
    }
}

#ifdef __cplusplus
}
#endif

#endif
