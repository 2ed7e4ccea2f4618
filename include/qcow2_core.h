/*
 * qcow2_core.h: read, write, discard, check, repair and extend a qcow2 image that
 * lies in memory. The C interface of the proved static library libqcow2_c.a.
 *
 * What is lent and to whom
 *   Every pointer is lent for the time of one call. Nothing is kept after the
 *   call, so the caller owns everything before and after it and may move or
 *   free it. Nothing is allocated, nothing global is touched, no file is opened
 *   and nothing is printed. Calls on different images may run at the same time;
 *   two calls on the same image may do so if neither changes it.
 *
 *   - image, n: the bytes of the whole image file. qcow2_write, qcow2_discard,
 *     qcow2_repair and qcow2_extend change them; the others only read them. Every
 *     call judges the header afresh and accepts any bytes whatever.
 *   - backing, b: the bytes of the image's backing file, whole, the same for
 *     every call on that image. No call changes them. Where the image names no
 *     backing file they are not looked at, whatever they are.
 *   - out, data, scratch: bytes of the caller, with their length.
 *   - state: QCOW2_CHECK_STATE bytes of the caller, any.
 *   - rows: numbers of 64 bits of the caller, with how many there are.
 *   - host, units, first, second, third, count, cluster_bits, size, clusters: one
 *     number each, stored by every call that takes it, whatever it answers. What
 *     it is after each answer stands at the call; what it was before is not
 *     looked at.
 *
 *   A pointer must not be NULL, also where its length is 0, and has to be good
 *   for its length. What a call writes to, bytes, rows or a number, must not
 *   overlap anything else that the call is lent. Bytes need no alignment, numbers
 *   that of uint64_t. Lengths are at most PTRDIFF_MAX.
 *
 * Two forms of each call
 *   qcow2_backed_read and the like are the functions of the library; they are
 *   lent the backing file's bytes after the image. qcow2_read and the like are
 *   the same with no such bytes: an image with a backing file is then refused
 *   with 19. qcow2_backing_name and qcow2_extend need none and have one form.
 *
 * Words
 *   C is the cluster size, 2 to the power cluster_bits; N = n / C the clusters
 *   of the image; size the guest disk's length in bytes. A stored count is a
 *   cluster's refcount, its references are what the tables name. It has 2 to the
 *   power refcount_order bits, 1 to 64, and 16 in version 2; a refcount block
 *   holds as many as C bytes do. Counts of 8 bits and more are big-endian; below
 *   that a byte holds several, the lowest cluster's in its lowest bits.
 *   The guest disk is reached through the active L1 table. A snapshot has an L1
 *   table of its own, and shares with it and with other snapshots the L2 tables
 *   and the data that were not written since. Bit 63 of an active L1 or L2 entry
 *   says that what it names has no other reference.
 *   The backing file is a raw disk underneath. The image's header has its name,
 *   which nothing here opens. What is not allocated reads as the backing file's
 *   bytes at the same guest offset, and as zeros past their end; a zero mark
 *   reads as zeros.
 *   A unit is the storing of one count, of one L1, L2 or refcount table entry, of
 *   the autoclear field, or of one byte of a fill. One that stores a count below 8
 *   bits leaves the other counts of the byte as they stand then.
 *
 * Answers
 *   0 is done: finished, sound, listed, or a host offset, as the call has it.
 *   1 to 999 is a refusal: the bytes of image, out, scratch and state and the rows
 *   are as they were, but for QCOW2_DAMAGED_IMAGE (17), which fills the scratch as
 *   the check does; and each number that the call stores, as *host or *count, is 0.
 *   1001 and up are the other answers. The header's numbers are tried first, in
 *   the order 1 to 8, 18, 9, 10, 19, 21, then 15 or 11, then 12, 13 and 22 on the
 *   way through the tables, then 20, then 14 or 16.
 */
#ifndef QCOW2_CORE_H
#define QCOW2_CORE_H

#include <stddef.h>
#include <stdint.h>

#ifdef __cplusplus
extern "C" {
#endif

/* Done: finished, sound, listed, or a host offset. */
#define QCOW2_DONE 0u

/* ---- Refusals: the header ------------------------------------------------ */

/* The image is shorter than 512 bytes. */
#define QCOW2_TOO_SHORT 1u
/* It does not begin with the magic 51 46 49 FB. */
#define QCOW2_WRONG_MAGIC 2u
/* The version is neither 2 nor 3. */
#define QCOW2_WRONG_VERSION 3u
/* cluster_bits is not 9 to 21 (clusters of 512 to 2,097,152 bytes). */
#define QCOW2_WRONG_CLUSTER_BITS 4u
/* n is not a whole number of clusters, or is above 1,073,741,824. */
#define QCOW2_WRONG_LENGTH 5u
/* Encryption or more than 64 snapshots; in version 3 also a refcount_order above
 * 6 (counts of more than 64 bits) or a header_length other than 104. */
#define QCOW2_NOT_SUPPORTED 6u
/* Version 3: a bit of incompatible_features is set. */
#define QCOW2_INCOMPATIBLE 7u
/* The disk is above 2^40 bytes, the L1 table has more than 65,536 entries, or
 * they do not reach to the end of the disk. */
#define QCOW2_WRONG_SIZE 8u
/* The disk is not a whole number of sectors: size is no multiple of 512. */
#define QCOW2_PARTIAL_SECTOR 18u
/* The L1 table or the refcount table does not start at a cluster or runs past
 * the image, or the refcount table has too few entries for all clusters. */
#define QCOW2_WRONG_TABLE 9u
/* A refcount table entry is wrong: one that has to name a refcount block names
 * none inside the image, or one after the last needed is not 0. So is one where
 * clusters were appended and qcow2_extend has not taken them in. There: the old
 * length is below 512, above n or no multiple of C, or an entry is wrong: one that
 * the old length needs names no cluster inside the longer image, one of a new block
 * is neither 0 nor the block's own place, or one after the last needed is not 0. */
#define QCOW2_WRONG_BLOCK 10u
/* There is a backing file, and its name has not 1 to 1,023 bytes or does not lie
 * inside the first cluster; or none of its bytes are lent to a call that needs
 * them. */
#define QCOW2_WRONG_BACKING 19u
/* There are snapshots, and their table does not start at a cluster or an entry
 * of it runs past the image; or a snapshot's L1 table has more than 65,536
 * entries, does not start at a cluster or runs past the image. */
#define QCOW2_WRONG_SNAPSHOT_TABLE 21u

/* ---- Refusals: the request and what is met on its way -------------------- */

/* The guest range runs past the disk's end; a write does not lie inside one
 * guest cluster; a discarded guest cluster begins at or past the disk's end; a
 * snapshot is not there, or the range runs past what its L1 table reaches. */
#define QCOW2_WRONG_RANGE 11u
/* An L1 or L2 entry on the way breaks the rules for entries. */
#define QCOW2_BAD_ENTRY 12u
/* The L2 entry is that of a compressed cluster. */
#define QCOW2_COMPRESSED 13u
/* The way of a write or discard leads through an L1 or L2 entry that has a place
 * and bit 63 clear: a snapshot may need what is there. Tried for the L1 entry
 * after 12, for the L2 entry after 13 and 12. */
#define QCOW2_HELD_BY_SNAPSHOT 22u
/* A discard that would let the backing file show: in version 2, which has no zero
 * marks, or where there is no L2 table that could have one. */
#define QCOW2_BACKING_SHOWS 20u
/* A write needs new clusters, one or two, and fewer have the stored count 0. */
#define QCOW2_NO_ROOM 14u
/* The scratch of a check or repair is shorter than 2N bytes. */
#define QCOW2_SHORT_SCRATCH 15u
/* The host cluster of a discard has the stored count 0 already. */
#define QCOW2_COUNT_IS_ZERO 16u
/* Repair of a damaged image: only leaks are repaired. */
#define QCOW2_DAMAGED_IMAGE 17u

/* ---- Other answers ------------------------------------------------------- */

/* The allowance was spent before the last unit (write, discard, repair, extend). */
#define QCOW2_STOPPED 1001u
/* The guest offset reads as zeros (translate, runs). */
#define QCOW2_ZEROS 1002u
/* The guest offset is not allocated: it reads as the backing file's byte, or as
 * zero where there is none (translate, runs). */
#define QCOW2_ABSENT 1003u
/* Leaking: counts above their references, nothing worse (check). */
#define QCOW2_LEAKS 1004u
/* Damaged, an entry of the active L1 table breaks the rules (check). */
#define QCOW2_BAD_L1 1005u
/* Damaged, an L2 entry below the active L1 table breaks the rules (check). */
#define QCOW2_BAD_L2 1006u
/* Damaged, a cluster is used for two things, or twice for one (check). */
#define QCOW2_SHARED 1007u
/* Damaged, a count is below its references (check). */
#define QCOW2_SHORT 1008u
/* Damaged, an entry of a snapshot's L1 table breaks the rules (check). */
#define QCOW2_SNAPSHOT_BAD_L1 1009u
/* Damaged, an L2 entry below a snapshot's L1 table breaks the rules (check). */
#define QCOW2_SNAPSHOT_BAD_L2 1010u
/* Damaged, bit 63 of an entry of the active L1 table is wrong (check). */
#define QCOW2_MARK_L1 1011u
/* Damaged, bit 63 of an L2 entry below the active L1 table is wrong (check). */
#define QCOW2_MARK_L2 1012u
/* The check is not finished yet (check in portions). */
#define QCOW2_MORE 1013u
/* The batch has to be stored before this call (batches). */
#define QCOW2_BATCH_ENDS 1014u

/* ---- The header ---------------------------------------------------------- */

/*
 * What the header of an accepted image gives: QCOW2_DONE, and *cluster_bits, the
 * disk's *size in bytes and the image's *clusters. Else 1 to 10, 18, 19 or 21,
 * and all three are 0.
 */
uint32_t qcow2_backed_geometry(const uint8_t *image, size_t n, const uint8_t *backing, size_t b,
                               uint64_t *cluster_bits, uint64_t *size, uint64_t *clusters);

/*
 * Where the name of the backing file stands in the image, and how many bytes it
 * has: QCOW2_DONE, *at and *len, both 0 where there is no backing file. Else 1 to
 * 10, 18, 21, or 19 for a bad name, and both are 0. The name is any bytes, not
 * ended by a 0, and comes from whoever made the image: opening the file that it
 * names may give that person any file of yours to read.
 */
uint32_t qcow2_backing_name(const uint8_t *image, size_t n, uint64_t *at, uint64_t *len);

/* ---- Reading ------------------------------------------------------------- */

/*
 * Where one guest offset lies. QCOW2_DONE gives its place in the image in *host;
 * QCOW2_ZEROS and QCOW2_ABSENT say that there is none; else 1 to 13, 18, 19 or
 * 21.
 * *host is 0 for every other answer than QCOW2_DONE. An offset at or past size
 * is 11.
 */
uint32_t qcow2_backed_translate(const uint8_t *image, size_t n, const uint8_t *backing, size_t b,
                                uint64_t offset, uint64_t *host);

/*
 * Reads out_len guest bytes from offset on. QCOW2_DONE: out is filled whole.
 * Else 1 to 13, 18, 19 or 21, and out is as it was. Length 0 at or before the
 * disk's end is done.
 */
uint32_t qcow2_backed_read(const uint8_t *image, size_t n, const uint8_t *backing, size_t b,
                           uint64_t offset, uint8_t *out, size_t out_len);

/*
 * The same of the disk that a snapshot has kept. Snapshots are numbered from 0,
 * in the snapshot table's order. The disk ends where the snapshot's L1 table
 * ends: its entries times C / 8 times C, whatever the size was. A snapshot that
 * is not there is 11, whatever is asked of it.
 */
uint32_t qcow2_backed_read_snapshot(const uint8_t *image, size_t n, const uint8_t *backing,
                                    size_t b, uint64_t snapshot, uint64_t offset, uint8_t *out,
                                    size_t out_len);

/*
 * How many guest bytes from offset on lie in one piece in the image: to the end
 * of the cluster or of the disk, whichever comes first. They start at the place
 * that qcow2_translate gives. 0 where translation gives no host offset; the
 * number of a refusal is had from qcow2_translate.
 */
size_t qcow2_backed_lookup(const uint8_t *image, size_t n, const uint8_t *backing, size_t b,
                           uint64_t offset);

/*
 * Lists the runs of the len guest bytes from offset on. A run is bytes that go
 * on alike, as far as they do and the range goes. Each takes three numbers of
 * rows:
 *
 *   its kind, as qcow2_translate would answer: QCOW2_DONE where it has a host
 *     offset, QCOW2_ZEROS, QCOW2_ABSENT, or QCOW2_BAD_ENTRY or QCOW2_COMPRESSED
 *     where a bad entry is on its way
 *   its host offset, which goes on byte by byte; 0 where it has none
 *   its length, above 0
 *
 * QCOW2_DONE: *count runs are listed, m / 3 at most (m numbers are lent), one
 * after the other; the rest of rows is as it was. Where their lengths fall short
 * of len, call again from there on. Else 1 to 11, 18, 19 or 21, *count is 0, and
 * rows are as they were. Length 0 at or before the disk's end is done with no
 * run, and so is m below 3: *count is 0.
 */
uint32_t qcow2_backed_runs(const uint8_t *image, size_t n, const uint8_t *backing, size_t b,
                           uint64_t offset, uint64_t len, uint64_t *rows, size_t m,
                           uint64_t *count);

/* ---- Storing -------------------------------------------------------------
 *
 * Each call has a list of units, worked out from the image as it was on entry,
 * and makes the first of them, as many as allowance lets it.
 *
 *   QCOW2_DONE     the whole list was made; *units: its length, 0 if it is empty
 *   QCOW2_STOPPED  the allowance was spent before its end; *units: the allowance
 *   a refusal      nothing was made; *units: 0
 *
 * UINT64_MAX as allowance never stops. To cut a call after u units is to leave
 * the image as a power cut would. A stopped call is not to be continued: call
 * again, and a new list is made.
 *
 * The autoclear field is bytes 88 to 95 of a version 3 image. Where it is not
 * zero, a list that is not empty has one unit more, its first: the field is
 * stored as zero. So whoever knows a feature of these bits sees that the image
 * was changed by one who does not. Each figure below that is above 0 is for a
 * field of zero, and one higher otherwise. An empty list and a refusal leave
 * the field as it is; version 2 has no such field.
 */

/*
 * Writes len bytes at offset, inside one guest cluster. Else 1 to 14, 18, 19, 21
 * or 22. The lists: data in place, len units; a zero mark with a place, the
 * cluster and the entry, C + 1; a new cluster, its count, the cluster and the
 * entry, C + 2; a new L2 table too, 2C + 4. Around the data a new cluster has the
 * backing file's bytes, and zeros past their end, past the disk's end, or where
 * there was a zero mark.
 */
uint32_t qcow2_backed_write(uint8_t *image, size_t n, const uint8_t *backing, size_t b,
                            uint64_t offset, const uint8_t *data, size_t len, uint64_t allowance,
                            uint64_t *units);

/*
 * Discards the guest cluster of this number (guest offset / C). Else 1 to 13, 16
 * or 18 to 22. The list: the L2 entry set to 0, then the count less one; shorter
 * where less is there. Over a backing file the entry becomes the zero mark alone,
 * the number 1, also where it was 0.
 */
uint32_t qcow2_backed_discard(uint8_t *image, size_t n, const uint8_t *backing, size_t b,
                              uint64_t cluster, uint64_t allowance, uint64_t *units);

/*
 * Sets each count of a leaking image that is above its references to them,
 * rising by cluster, one unit each. A sound image has an empty list. Else 1 to
 * 10, 15, 17 to 19 or 21. Unless refused with 1 to 15, 18, 19 or 21, scratch[0..2N]
 * ends as the check would leave it for the image as it was on entry, whatever
 * the allowance. Where the autoclear field is not zero, what looks leaked may
 * belong to a feature of its bits, such as qemu's persistent bitmaps.
 */
uint32_t qcow2_backed_repair(uint8_t *image, size_t n, const uint8_t *backing, size_t b,
                             uint8_t *scratch, size_t m, uint64_t allowance, uint64_t *units);

/*
 * Takes in what was appended to an image that had old bytes. Where the longer one
 * needs no more refcount blocks, the clusters are there already and the list is
 * empty. Else every other call refuses it with 10 until this one is finished.
 *
 * The list: for each refcount table entry from the blocks of the old length up to
 * those of n that is 0, rising, the new block, C units, and then the entry, one: C +
 * 1 for each. The block goes into the first cluster that it counts; its own count is
 * 1, all others 0. Else 1 to 10, 18, 19 or 21: the header is judged by all n bytes,
 * a refcount table that is too short for them is 9, and 19 is for a bad name alone.
 *
 * Where the first old bytes by themselves are sound or leaking, whatever the others
 * are: however often the call is stopped, it can be made again, and the last one
 * leaves just the bytes that a single one would have left. Then the image is sound
 * or leaking, and its disk and its snapshots read as those old bytes did. It may
 * leak what it did not before: counts past the old end, which nothing looked at, are
 * those of appended clusters. Meanwhile any old length that needs as many blocks as
 * the refcount table names from its first entry on gives the same list, so that the
 * work can be finished without knowing how long the image once was.
 *
 * Over a file: append the zeros and flush the file's length. Then block by block,
 * on the image in memory: with allowance C the block is made, to be stored and
 * flushed; with C + 1, in a call after it, its entry too, to be stored and flushed.
 * Where the autoclear field is to be cleared, a call with allowance 1 and a flush
 * come before all that. The bytes of a block may be stored in any order.
 *
 * The call keeps up to 32 KiB of marks on its stack. Of the others only
 * qcow2_check_portion keeps such a thing.
 */
uint32_t qcow2_extend(uint8_t *image, size_t n, uint64_t old, uint64_t allowance, uint64_t *units);

/* ---- Steps ---------------------------------------------------------------
 *
 * For a store that runs a call on the image in memory and brings the bytes that
 * it changed to a file or drive. Asked before the call is made, on the image as
 * the call will be handed it, these list the call's steps. Each takes four
 * numbers of rows:
 *
 *   where its bytes begin in the image
 *   how many they are
 *   how many units of the call's list they are: one for a count, an entry or the
 *     autoclear field, else one for each byte
 *   its epoch: 0 for the unit that clears the autoclear field, 2 for the one that
 *     links, shows or frees what the others of epoch 1 made ready
 *
 * They come in the list's order. Between two steps of different epochs a flush
 * must stand, so that all before it is stored when it returns; within one epoch
 * the bytes may be stored in any order. On an image that a check calls sound or
 * leaking no byte is in steps of two epochs, so the bytes may be taken from the
 * image as the finished call leaves it. Then whatever sectors of 512 bytes a
 * power cut leaves stored of an epoch, the image is sound or leaking, its
 * snapshots are whole, and the guest bytes are what the header says of a call
 * that was stopped.
 *
 * QCOW2_DONE: *count steps are listed, m / 4 at most (m numbers are lent), the
 * first of them; the rest of rows is as it was. Else the number that the call
 * would be refused with, *count is 0, and rows are as they were. A write has 7
 * steps at most, a discard 3; a repair has one for each count that it sets, and
 * one more where it clears the autoclear field.
 */

/* Of qcow2_write with len bytes, whatever they are. */
uint32_t qcow2_backed_write_steps(const uint8_t *image, size_t n, const uint8_t *backing, size_t b,
                                  uint64_t offset, uint64_t len, uint64_t *rows, size_t m,
                                  uint64_t *count);

/* Of qcow2_discard. */
uint32_t qcow2_backed_discard_steps(const uint8_t *image, size_t n, const uint8_t *backing,
                                    size_t b, uint64_t cluster, uint64_t *rows, size_t m,
                                    uint64_t *count);

/* Of qcow2_repair. The scratch ends as the repair leaves it. */
uint32_t qcow2_backed_repair_steps(const uint8_t *image, size_t n, const uint8_t *backing, size_t b,
                                   uint8_t *scratch, size_t scratch_len, uint64_t *rows, size_t m,
                                   uint64_t *count);

/* ---- Batches -------------------------------------------------------------
 *
 * For a store that runs several calls in memory and stores them together, with
 * three flushes for all. The rows are the batch: held of them, four numbers each,
 * as steps have them, but for the last:
 *
 *   where its bytes begin in the image, how many they are, how many units
 *   its phase: 0 clears the autoclear field; 1 makes ready: counts that rise,
 *     bytes, and entries in bytes that the batch has in phase 1; 2: all other
 *     entries; 3: counts that fall
 *
 * A batch begins with held = 0, on an image that a check calls sound or leaking
 * and that is what the file holds. Each call is planned first, on the image as it
 * will be handed it, and then made in memory to its end, with UINT64_MAX as
 * allowance:
 *
 *   QCOW2_DONE        *count rows are held now: hand that on as held. The call's
 *                     own come after those that were, phase by phase
 *   QCOW2_BATCH_ENDS  *count is 0; the call is not in the batch. There is no room
 *                     for its rows, or a byte would be in phase 1 and in phase 3:
 *                     it takes a cluster that the batch has freed, or frees one
 *                     that it has taken. Store the batch, then plan the call again
 *                     with held = 0. With held = 0 it means that too few rows are
 *                     lent: 7 are enough for a write, 3 for a discard; a repair
 *                     has as many as it has steps. Such a call is made by itself,
 *                     by its steps
 *   a refusal         the number that the call would be refused with, *count is 0,
 *                     rows are as they were, and the batch goes on as it is
 *
 * After QCOW2_BATCH_ENDS the rows past the held ones may have changed, as far as
 * there was room; the held ones never do. m numbers are lent, that is m / 4 rows;
 * more held than there are is QCOW2_BATCH_ENDS. Any numbers may be lent.
 *
 * To store it: the bytes of all rows of phase 0, a flush, those of phase 1, a
 * flush, those of phase 2, a flush, those of phase 3, a flush; a phase with no row
 * needs none. Within a phase they may be stored in any order, and they may be taken
 * from the image in memory as the last call left it. When the last flush has
 * returned, all calls of the batch are safe, and the next batch may begin.
 */

/* qcow2_write with len bytes, whatever they are. */
uint32_t qcow2_backed_batch_write(const uint8_t *image, size_t n, const uint8_t *backing, size_t b,
                                  uint64_t offset, uint64_t len, uint64_t *rows, size_t m,
                                  uint64_t held, uint64_t *count);

/* qcow2_discard. */
uint32_t qcow2_backed_batch_discard(const uint8_t *image, size_t n, const uint8_t *backing,
                                    size_t b, uint64_t cluster, uint64_t *rows, size_t m,
                                    uint64_t held, uint64_t *count);

/* qcow2_repair. The scratch ends as the repair leaves it. */
uint32_t qcow2_backed_batch_repair(const uint8_t *image, size_t n, const uint8_t *backing, size_t b,
                                   uint8_t *scratch, size_t scratch_len, uint64_t *rows, size_t m,
                                   uint64_t held, uint64_t *count);

/* ---- Checking ------------------------------------------------------------ */

/*
 * Counts the references, on every path from every L1 table, and judges the
 * stored counts by them. scratch has m bytes, at least 2N. Unless refused (1 to
 * 10, 15, 18, 19, 21), scratch[0..2N] ends as the references of each cluster, two
 * big-endian bytes each, with 65,535 for more; the rest is as it was.
 *
 *   QCOW2_DONE    sound; *first: 0
 *   QCOW2_LEAKS   *first: number of clusters whose count is too high
 *   QCOW2_BAD_L1  *first: L1 index of the first bad entry
 *   QCOW2_BAD_L2  *first, *second: L1 and L2 index of the first bad entry
 *   QCOW2_SNAPSHOT_BAD_L1, QCOW2_SNAPSHOT_BAD_L2
 *                 the same; *third: the snapshot's number
 *   QCOW2_SHARED  *first: the lowest shared cluster
 *   QCOW2_SHORT   *first: the lowest cluster whose count is too low
 *   QCOW2_MARK_L1 *first: L1 index of the first entry whose bit 63 is wrong
 *   QCOW2_MARK_L2 *first, *second: its L1 and L2 index
 *   a refusal     *first: 0
 *
 * *second is 0 for every other answer than the three with an L2 index, *third for
 * every other than the two of a snapshot. Of several faults the first is named: a
 * bad entry, of the active L1 table and what is below it and then of each
 * snapshot's; a shared cluster; a short one; a wrong bit 63.
 *
 * A cluster is shared if it has two roles out of header, refcount table, refcount
 * block, L1 table, snapshot table, L2 table and data, if it has one of the first
 * five twice, or if it is reached twice from one L1 table. Bit 63 of an active
 * entry with a place is right if it is set exactly where that place has one
 * reference.
 */
uint32_t qcow2_backed_check(const uint8_t *image, size_t n, const uint8_t *backing, size_t b,
                            uint8_t *scratch, size_t m, uint64_t *first, uint64_t *second,
                            uint64_t *third);

/* Bytes of the state of a check in portions. */
#define QCOW2_CHECK_STATE 56

/*
 * The same check in portions, for whoever has little time at once. The caller keeps
 * state and scratch between two portions. All 0 is a new state, with which a check
 * begins; any bytes are a state. scratch has m bytes, at least 2N.
 *
 * A portion takes the next L1 entries, as many as may says while some are left:
 * those of the active L1 table, then each snapshot's. To scratch[0..2N] it adds the
 * references that these entries and the L2 entries below them give. With a new
 * state it clears scratch[0..2N] before that, and adds the references of cluster 0,
 * of the tables and of the refcount blocks. If no entry is left then, it is the last
 * portion and judges the image: where no bad entry was met, sharing by the image's
 * bytes, counts and bit 63 by these and the scratch.
 *
 *   QCOW2_MORE    not finished yet; *first, *second, *third: 0
 *   a refusal     1 to 10, 15, 18, 19, 21, and all three are 0: nothing has changed,
 *                 and the portion can be made again
 *   any other     as qcow2_backed_check has it, with all three as there
 *
 * From a new state on, with image, backing file, state and scratch left alone
 * between two portions, the last answer and scratch[0..2N] are those of
 * qcow2_backed_check, whatever each portion may take. If each may take an entry,
 * there are no more portions than L1 entries; with no entry at all there is one.
 *
 * A portion that may take none changes nothing, nor does one with a finished state,
 * which answers as before; header and scratch are judged first all the same. Where
 * the image has changed since the last portion, the next judges the bytes that it is
 * lent: it passes over a table or an index that they lack, and does not go back to
 * entries that were taken. So a write in between may show as leaks, or as damage
 * that is not there. A repair makes its own check.
 *
 * The state is seven big-endian numbers of 8 bytes. The first is 0 for new, 1 for
 * going, any other for finished, which is stored as 2. The next two are, while it is
 * going, the L1 table of the last entry taken, 0 for the active one and k + 1 for
 * snapshot k's, and the index after that entry. Then come the first bad entry so
 * far, or the answer, as a kind and up to three numbers:
 *
 *   0  sound, or no bad entry      5  short: the cluster
 *   1  leaks: how many             6  bit 63 of an L1 entry: its index
 *   2  a bad L1 entry: its table   7  bit 63 of an L2 entry: its L1 and L2 index
 *      and index                   8  and above, a refusal: its number, modulo 256
 *   3  a bad L2 entry: its table,
 *      L1 and L2 index
 *   4  shared: the cluster
 *
 * Numbers that are not used are stored as 0 and not looked at. What a state that no
 * portion has made says was found is told in the end, whatever it is.
 *
 * The call keeps a window of 64 KiB on its stack. The last portion walks all tables
 * once more for each 524,288 clusters, or 32,768 where there are snapshots.
 */
uint32_t qcow2_backed_check_portion(const uint8_t *image, size_t n, const uint8_t *backing,
                                    size_t b, uint8_t *state, uint8_t *scratch, size_t m,
                                    uint64_t may, uint64_t *first, uint64_t *second,
                                    uint64_t *third);

/*
 * A cluster's stored count less the scratch's figure, from -65,535 up, and
 * 65,535 where it is more. Below zero the cluster is short, above zero it leaks.
 */
int32_t qcow2_difference(uint64_t stored, uint16_t figure);

/* ---- The same calls with no backing file lent ------------------------------ */

static inline uint32_t qcow2_geometry(const uint8_t *image, size_t n, uint64_t *cluster_bits,
                                      uint64_t *size, uint64_t *clusters)
{
    return qcow2_backed_geometry(image, n, image, 0, cluster_bits, size, clusters);
}

static inline uint32_t qcow2_translate(const uint8_t *image, size_t n, uint64_t offset,
                                       uint64_t *host)
{
    return qcow2_backed_translate(image, n, image, 0, offset, host);
}

static inline uint32_t qcow2_read(const uint8_t *image, size_t n, uint64_t offset, uint8_t *out,
                                  size_t out_len)
{
    return qcow2_backed_read(image, n, image, 0, offset, out, out_len);
}

static inline uint32_t qcow2_read_snapshot(const uint8_t *image, size_t n, uint64_t snapshot,
                                           uint64_t offset, uint8_t *out, size_t out_len)
{
    return qcow2_backed_read_snapshot(image, n, image, 0, snapshot, offset, out, out_len);
}

static inline size_t qcow2_lookup(const uint8_t *image, size_t n, uint64_t offset)
{
    return qcow2_backed_lookup(image, n, image, 0, offset);
}

static inline uint32_t qcow2_runs(const uint8_t *image, size_t n, uint64_t offset, uint64_t len,
                                  uint64_t *rows, size_t m, uint64_t *count)
{
    return qcow2_backed_runs(image, n, image, 0, offset, len, rows, m, count);
}

static inline uint32_t qcow2_write(uint8_t *image, size_t n, uint64_t offset, const uint8_t *data,
                                   size_t len, uint64_t allowance, uint64_t *units)
{
    return qcow2_backed_write(image, n, image, 0, offset, data, len, allowance, units);
}

static inline uint32_t qcow2_discard(uint8_t *image, size_t n, uint64_t cluster, uint64_t allowance,
                                     uint64_t *units)
{
    return qcow2_backed_discard(image, n, image, 0, cluster, allowance, units);
}

static inline uint32_t qcow2_repair(uint8_t *image, size_t n, uint8_t *scratch, size_t m,
                                    uint64_t allowance, uint64_t *units)
{
    return qcow2_backed_repair(image, n, image, 0, scratch, m, allowance, units);
}

static inline uint32_t qcow2_write_steps(const uint8_t *image, size_t n, uint64_t offset,
                                         uint64_t len, uint64_t *rows, size_t m, uint64_t *count)
{
    return qcow2_backed_write_steps(image, n, image, 0, offset, len, rows, m, count);
}

static inline uint32_t qcow2_discard_steps(const uint8_t *image, size_t n, uint64_t cluster,
                                           uint64_t *rows, size_t m, uint64_t *count)
{
    return qcow2_backed_discard_steps(image, n, image, 0, cluster, rows, m, count);
}

static inline uint32_t qcow2_repair_steps(const uint8_t *image, size_t n, uint8_t *scratch,
                                          size_t scratch_len, uint64_t *rows, size_t m,
                                          uint64_t *count)
{
    return qcow2_backed_repair_steps(image, n, image, 0, scratch, scratch_len, rows, m, count);
}

static inline uint32_t qcow2_batch_write(const uint8_t *image, size_t n, uint64_t offset,
                                         uint64_t len, uint64_t *rows, size_t m, uint64_t held,
                                         uint64_t *count)
{
    return qcow2_backed_batch_write(image, n, image, 0, offset, len, rows, m, held, count);
}

static inline uint32_t qcow2_batch_discard(const uint8_t *image, size_t n, uint64_t cluster,
                                           uint64_t *rows, size_t m, uint64_t held,
                                           uint64_t *count)
{
    return qcow2_backed_batch_discard(image, n, image, 0, cluster, rows, m, held, count);
}

static inline uint32_t qcow2_batch_repair(const uint8_t *image, size_t n, uint8_t *scratch,
                                          size_t scratch_len, uint64_t *rows, size_t m,
                                          uint64_t held, uint64_t *count)
{
    return qcow2_backed_batch_repair(image, n, image, 0, scratch, scratch_len, rows, m, held,
                                     count);
}

static inline uint32_t qcow2_check(const uint8_t *image, size_t n, uint8_t *scratch, size_t m,
                                   uint64_t *first, uint64_t *second, uint64_t *third)
{
    return qcow2_backed_check(image, n, image, 0, scratch, m, first, second, third);
}

static inline uint32_t qcow2_check_portion(const uint8_t *image, size_t n, uint8_t *state,
                                           uint8_t *scratch, size_t m, uint64_t may,
                                           uint64_t *first, uint64_t *second, uint64_t *third)
{
    return qcow2_backed_check_portion(image, n, image, 0, state, scratch, m, may, first, second,
                                      third);
}

#ifdef __cplusplus
}
#endif

#endif
