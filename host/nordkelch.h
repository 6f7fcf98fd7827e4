/* The C entries of the proved library for reading a request, for its clause
 * file, for reading an answer to it, for checking a network against it, for
 * checking a refutation of it, and for settling it: whether the answer's network
 * has the least number of switches.
 *
 * A request is handed over as numbers, which nk_read_request reads from its
 * line:
 *   n          inputs, 1 to 4
 *   table      bit k is row k, 1 for an on row; no bit at or above 2^n
 *   free_rows  bit k is row k, 1 for a free row; no bit at or above 2^n, and
 *              none that the table has too. 0 where every row is on or off
 *   r          switches, 0 to 7
 *   m          the series bound M, 0 to 7
 * A row that is neither on nor free is off. On a free row a network may conduct
 * or not: nothing is asked of it there. In a written table row 0 is the first
 * character, and a row is 1 for on, 0 for off, - for free. Input 0 is the
 * highest bit of a row's number.
 *
 * Document 02 calls the third number `free`, which in C is a function of the
 * library.
 *
 * A network is 24 bytes: network[0] is its number of switches r, network[1 .. 8)
 * its literals, of which the first r count, and network[8 .. 24) its labels, of
 * which the first 2r+2 count. Switch s, from 0, has the literal network[1+s] and
 * its ends on the nets network[8+2s+1] and network[8+2s+2]; the source is on net
 * network[8], which is 0, and the sink on net network[8+2r+1]. A literal v below
 * n is input v, n + v is the complement of input v.
 *
 * nk_check_network and nk_settle answer what they found, and write a number
 * beside it. Each other entry answers 0, or the number of the refusal. For a
 * request the first that applies is given, in this order:
 *   1 the line hasn't its form, 2 bad n, 3 bad table or bad free rows, 24 a row
 *   that is on and free, 4 bad r, 5 bad M; and then 6 the buffer is too short.
 * 1 is of a line alone; 24 is of numbers alone, since a line has one character
 * for a row. So a request as numbers is tested for 2, 3, 24, 4, 5.
 * A network that is handed over has, after those of the request:
 *   13 it hasn't the form.
 * An answer's lines are read from the top, and the first fault counts:
 *   9 a line's form, 10 a variable above V or an X or L variable named twice;
 * then, at the end of the text:
 *   11 something missing, 12 the values describe no network.
 * A refutation has, after those of the request and in this order:
 *   7 the literals are too short, 8 the pairs, 14 the values, 15 the text is
 *   above 16,777,215 bytes;
 * then its lines are checked from the top, and the first fault counts:
 *   16 a line's form, 17 an id not above C and the last added one, 18 a
 *   literal outside +-V or a variable twice, 22 no place for the record, 19 a
 *   clause that doesn't stand, 20 a hint that sets nothing, 21 no conflict;
 * and 23 when the text ends before the empty clause.
 *
 * Pointers may not be null. What they name may not overlap. A slice is a
 * pointer and a length, in entries; a slice of length 0 still needs a pointer
 * that is not null. The entries keep nothing between calls, allocate nothing
 * and call nothing but memcpy and memset, so threads may call them at the same
 * time over slices of their own.
 *
 * What to lend
 * ------------
 * A refutation is checked over slices whose sizes follow from the request that
 * it refutes: V variables, C clauses, and T literals in all clauses. nk_sizes
 * gives them; or lend the most that any request has:
 *
 *                        V       C       T   bytes of the file
 *   any request      1,856  27,547  77,088             420,799
 *   nk_settle's      1,595  20,978  58,140             311,213
 *
 * The second line is for the refutation that nk_settle reads, which is of the
 * request with k - 1, at most 6, switches. Lend
 *   literals  T entries: at most 77,088, which is 308,352 bytes
 *   pairs     2C entries: at most 55,094, which is 220,376 bytes
 *   values    V + 1 bytes: at most 1,857
 *   added     three entries, a record, for each line of the text that adds a
 *             clause; a line whose second word is "d" adds none, nor does the
 *             empty clause. Three times the number of newlines is always
 *             enough, and a line that adds a clause has ten bytes or more:
 *             "7 1 0 5 0" and a newline
 * Longer slices do no harm: entries past what is named here stand.
 * host/settle.cpp is an example.
 */
#ifndef NORDKELCH_H
#define NORDKELCH_H

#include <stddef.h>
#include <stdint.h>

#ifdef __cplusplus
extern "C" {
#endif

/* The refusals by name, with the numbers of documents 01 and 02. 1 is given by
 * nk_read_request alone, since the other entries take a request as numbers, 24
 * by the others alone, and 13 by nk_check_network alone: a network that was read
 * from an answer always has the form. */
enum nk_refusal {
    NK_TAKEN = 0,               /* no refusal */
    NK_BAD_LINE = 1,            /* the line of a request hasn't its form */
    NK_BAD_N = 2,               /* n is not 1 to 4 */
    NK_BAD_TABLE = 3,           /* a bit of the table or of the free rows at or above 2^n */
    NK_BAD_R = 4,               /* r is above 7 */
    NK_BAD_M = 5,               /* M is above 7 */
    NK_SHORT_BUFFER = 6,        /* the buffer is shorter than the file */
    NK_SHORT_LITERALS = 7,      /* fewer than T literals are lent */
    NK_SHORT_PAIRS = 8,         /* fewer than 2C entries of pairs are lent */
    NK_ANSWER_LINE = 9,         /* a line of the answer hasn't its form */
    NK_ANSWER_VARIABLE = 10,    /* a variable above V; an X or L variable twice */
    NK_ANSWER_MISSING = 11,     /* no s line, no 0, or an X or L value missing */
    NK_ANSWER_NO_NETWORK = 12,  /* the values break the clauses of groups 1 and 2 */
    NK_NETWORK_FORM = 13,       /* a network without the form */
    NK_SHORT_VALUES = 14,       /* fewer than V + 1 values are lent */
    NK_LONG_REFUTATION = 15,    /* the refutation is above 16,777,215 bytes */
    NK_REFUTATION_LINE = 16,    /* a line of the refutation hasn't its form */
    NK_BAD_ID = 17,             /* an added clause's id is not above C and every earlier one */
    NK_BAD_LITERAL = 18,        /* a literal outside +-V, or a variable twice */
    NK_CLAUSE_NOT_STANDING = 19, /* a hint or a deletion of a clause that doesn't stand */
    NK_HINT_SETS_NOTHING = 20,  /* a hint that is neither unit nor the conflict */
    NK_NO_CONFLICT = 21,        /* the hints are spent without a conflict */
    NK_NO_PLACE = 22,           /* no three entries left in added */
    NK_NO_EMPTY_CLAUSE = 23,    /* the text ends before the empty clause */
    NK_BOTH_BITS = 24           /* a row with both bits, in the table and in the free rows */
};

/* What nk_check_network answers. */
enum nk_network_check { NK_NETWORK_DOES = 0, NK_NETWORK_WRONG = 1, NK_NETWORK_REFUSED = 2 };

/* What nk_settle answers. */
enum nk_verdict { NK_LEAST = 0, NK_WORKS = 1, NK_FAILS = 2, NK_REFUSED = 3 };

/* The longest refutation that is read, in bytes. */
#define NK_REFUTATION_LIMIT 16777215

/* Reads the line of a request, text[0 .. text_len): n, the table, r and M as
 * digits, in the table also -, single spaces between, a newline last and nothing
 * else. The text may have any bytes and any length, and may be empty.
 *
 * 0: *n, *table, *free_rows, *r and *m are the request's numbers, which no other
 *    entry refuses.
 * 1 to 5: refused; the five numbers stand.
 */
uint32_t nk_read_request(const uint8_t *text, size_t text_len, uint8_t *n, uint16_t *table,
                         uint16_t *free_rows, uint8_t *r, uint8_t *m);

/* The sizes of a request's formula: V variables, C clauses, and T literals in
 * all clauses. What to lend for a refutation of it follows from them.
 *
 * 0: *variables is V, *clauses C, *literals T. With r = 0 and all rows free there
 *    is no clause: V is 1, C and T are 0.
 * 2 to 5, 24: refused; the three numbers stand.
 */
uint32_t nk_sizes(uint8_t n, uint16_t table, uint16_t free_rows, uint8_t r, uint8_t m,
                  uint32_t *variables, uint32_t *clauses, uint32_t *literals);

/* The file's length, worked out without writing the file.
 *
 * 0: *size is exactly the length that nk_write_file gives. With a buffer of that
 *    many bytes writing never gives 6, with one byte less it always does.
 * 2, 3, 24, 4, 5: refused, *size stands. 6 is never given, since no buffer is
 *    lent.
 */
uint32_t nk_file_size(uint8_t n, uint16_t table, uint16_t free_rows, uint8_t r, uint8_t m,
                      uint64_t *size);

/* Writes the file into the first bytes of buffer[0 .. buffer_length). The file
 * needs exactly the bytes that nk_file_size gives; 420,799 are enough for any
 * request.
 *
 * 0: *size is the file's length; bytes of the buffer past it stand. The file
 *    is the text for a SAT solver: it is satisfiable exactly when some network
 *    of r switches does the job.
 * 2, 3, 24, 4, 5, 6: refused; nothing is written to the buffer, *size stands.
 *    6 is given exactly when buffer_length is below the file's length.
 */
uint32_t nk_write_file(uint8_t n, uint16_t table, uint16_t free_rows, uint8_t r, uint8_t m,
                       uint8_t *buffer, size_t buffer_length, uint64_t *size);

/* Tests the answer text[0 .. text_length): only the number of the
 * refusal is handed back, not the network. The text may be empty. Nothing is
 * lent and nothing written.
 *
 * 0: the answer is taken. Whether its network does the job is not tested here.
 * 2 to 5, 24, 9 to 12: refused.
 */
uint32_t nk_test_answer(uint8_t n, uint16_t table, uint16_t free_rows, uint8_t r, uint8_t m,
                        const uint8_t *text, size_t text_length);

/* Checks whether a network does the request's job: on each on row a walk of at
 * most M closed switches joins source and sink, on each off row no walk of any
 * number of closed switches does. Free rows are not looked at, and none of them
 * is ever the wrong one. Literals past the first r and labels past the first 2r+2
 * are not read.
 *
 * 0: does. *number is 0.
 * 1: wrong. *number is the lowest wrong row.
 * 2: refused. *number is 2 to 5 or 24, or 13 where network[0] is not the
 *    request's r, a literal is not below 2n, or a label is not the lowest
 *    terminal of its net: terminals with equal labels are on one net.
 */
uint32_t nk_check_network(uint8_t n, uint16_t table, uint16_t free_rows, uint8_t r, uint8_t m,
                          const uint8_t network[24], uint32_t *number);

/* Checks the refutation text[0 .. text_len), which may be empty. With V
 * variables, C clauses and T literals in the file, the lent slices are:
 *   literals  at least T entries, the literals of all clauses
 *   pairs     at least 2C entries, offset and length of each clause in them
 *   added     any number of entries, three for each added clause, its record:
 *             its id, and offset and length, in bytes of the text, of its
 *             literals; the length of a deleted one is 0
 *   values    at least V+1 bytes
 * What they hold before the call does not matter.
 *
 * 0: the text refutes the request ("none"): every network that does the job,
 *    of any number of switches, has more than r switches.
 * 16 to 23: refused.
 *    In both cases the first T literals and 2C pairs are filled, *count is the
 *    number of added clauses, the first 3 * *count entries of added are theirs,
 *    the first V+1 values are 0, and all other entries stand.
 * 2 to 5, 24, 7, 8, 14, 15: refused; the slices stand, *count is 0.
 *
 * Clause i of the file, from 1, is pairs[2i-1] literals from entry
 * pairs[2i-2] of literals on. Record j, from 0, is of the added clause with the
 * id added[3j]: the text's added[3j+2] bytes from byte added[3j+1] on. Ids are
 * above C and rise from record to record, by one or more.
 */
uint32_t nk_check_refutation(uint8_t n, uint16_t table, uint16_t free_rows, uint8_t r, uint8_t m,
                            const uint8_t *text, size_t text_len, int32_t *literals,
                            size_t literals_len, uint32_t *pairs, size_t pairs_len,
                            uint32_t *added, size_t added_len, uint8_t *values, size_t values_len,
                            uint32_t *count);

/* Settles a request with k switches by an answer to it and a refutation of the
 * request with k - 1 switches. Both texts may be empty. The lent slices are
 * those of nk_check_refutation, for k - 1. At k = 0 the refutation is not read
 * and the slices may be empty.
 *
 * 0: least. The network does the job, and no network of fewer switches does,
 *    whatever its size. *number is 0.
 * 1: works. The network does the job; *number is the refutation's refusal: 7,
 *    8, 14, 15 or 16 to 23.
 * 2: fails. *number is the lowest wrong row of the network, an on row or an off
 *    row.
 * 3: refused. *number is the answer's refusal: 2 to 5, 24 or 9 to 12.
 *
 * The 24 bytes of the network are those that the answer describes, with 0 for
 * the literals and labels that do not count; after 3 all are 0.
 *
 * After 0 and 1 the slices are, for k above 0, as nk_check_refutation leaves
 * them; at k = 0 and after 2 and 3 they stand.
 */
uint32_t nk_settle(uint8_t n, uint16_t table, uint16_t free_rows, uint8_t k, uint8_t m,
                   const uint8_t *answer, size_t answer_len, const uint8_t *refutation,
                   size_t refutation_len, int32_t *literals, size_t literals_len, uint32_t *pairs,
                   size_t pairs_len, uint32_t *added, size_t added_len, uint8_t *values,
                   size_t values_len, uint8_t network[24], uint32_t *number);

#ifdef __cplusplus
}
#endif

#endif
