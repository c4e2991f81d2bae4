/* nurl.h: the C interface of libnurl.a, a reader of NURL source (grammar 1.7)
 * that turns bytes into a table of tokens and a flat tree. docs/LANGUAGE.md
 * explains the language and its trees, docs/REFUSALS.md each refusal. */
#ifndef NURL_H
#define NURL_H

#include <stddef.h>
#include <stdint.h>

/* The longest source and the longest list of extra type names, in bytes. */
#define NURL_SOURCE_LIMIT 1048576
#define NURL_NAMES_LIMIT 16384

/* Numbers in one row of the token table and of the tree table. */
#define NURL_TOKEN_WIDTH 3
#define NURL_ROW_WIDTH 4

/* Table lengths, in numbers, that are enough for any source of so many bytes:
 * a source has at most as many tokens as bytes, and its tree at most two rows
 * for each token and one more. Smaller tables may do, and are refused if not. */
#define NURL_TOKENS_ENOUGH(source_len) (NURL_TOKEN_WIDTH * (source_len))
#define NURL_ROWS_ENOUGH(source_len) (NURL_ROW_WIDTH * (2 * (source_len) + 1))

#ifdef __cplusplus
extern "C" {
#endif

/* Reads a source. Any bytes, any list and any table lengths get an answer.
 *
 * Lent for the call:
 *   source  the bytes to read;
 *   names   extra type names (those of imported types), separated by one byte
 *           10, of length 0 if there are none;
 *   tokens  the token table, NURL_TOKEN_WIDTH numbers a row:
 *           kind, start byte, length in bytes;
 *   rows    the tree table, NURL_ROW_WIDTH numbers a row:
 *           kind, first token, tokens covered, rows in the subtree with itself.
 *           Rows stand parent first, children from left to right.
 *
 * Every length counts elements: bytes for source and names, single numbers for
 * the tables. It need not be a whole number of rows; numbers past the last
 * whole row are never touched.
 *
 * answer becomes {0, token count, row count} on acceptance: the first rows of
 * both tables are filled, the others are unchanged. On a refusal it becomes
 * {number, place, 0}:
 *
 *   No.  Given when                         Place
 *   1    source over NURL_SOURCE_LIMIT      0
 *   2    names over NURL_NAMES_LIMIT, or    0, or first byte of the earliest
 *        an entry is not one name           such entry
 *   3    a byte begins no token             its offset
 *   4    a string is not closed             offset of its opening backtick
 *   5    more tokens than whole rows        tokens needed
 *   6    the tokens are not a program       token index; token count at the end
 *   7    nested deeper than 200 levels      token index
 *   8    more tree rows than whole rows     tree rows needed
 *
 * They are looked for in that order, but of 3 and 4, and of 6 and 7, the one
 * met first in the source is given. On 1 to 5 both tables are unchanged. On 6
 * to 8 the token table is filled as on acceptance, and every whole row of the
 * tree table is zero.
 *
 * What a caller must see to: each pointer is valid for its length, aligned for
 * its type and not null, even where the length is 0 (any valid pointer does
 * then); answer has room for three numbers; tokens, rows and answer overlap
 * neither each other nor source nor names; and nobody else writes what is lent
 * or reads the tables and answer during the call.
 *
 * The function allocates nothing, keeps no pointer and has no state, so any
 * number of threads may call it at once, each with tables of its own. It takes
 * at most about 256 KiB of stack, whatever the source. */
void nurl_read(const uint8_t *source, size_t source_len,
               const uint8_t *names, size_t names_len,
               uint32_t *tokens, size_t tokens_len,
               uint32_t *rows, size_t rows_len,
               uint32_t answer[3]);

#ifdef __cplusplus
}
#endif

/* Token kinds
 *   1 name, 2 type keyword, 3 boolean, 4 `Z`, 5 INT, 6 FLOAT, 7 string, and
 *   from 8 to 42 in this order:
 *   $ & @ % : | = ; ~ { } ( ) [ ] ! ^ \ ? . # * + - / < > == != <= >= << >> ??
 *   and the arrow (bytes E2 86 92).
 *
 * Row kinds
 *   1 program, 2 import, 3 foreign, 4 trait, 5 impl, 6 function, 7 struct,
 *   8 enum, 9 constant, 10 header, 11 parameter or field, 12 variant,
 *   13 bracketed name list, 14 block, 15 let, 16 set name, 17 set element,
 *   18 defer, 19 while, 20 foreach, 21 literal, 22 name as expression,
 *   23 binary, 24 not, 25 return, 26 complement, 27 try, 28 closure,
 *   29 sizeof, 30 aggregate, 31 slice literal, 32 conditional, 33 call,
 *   34 member, 35 cast, 36 match, 37 arm, 38 payload, 39 base type,
 *   40 pointer, 41 optional, 42 slice type, 43 result, 44 function type,
 *   45 generic instance, 46 named type. */

#endif
