/* Dzwonolin: a proved reader of CIFTI-2 headers, and of GIFTI label files, from C.

   Nothing here allocates, keeps state or calls the system. All memory is lent by the caller: each slice is
   a pointer and the number of its elements. Slices lent for writing overlap no other slice of the call. The
   pointer of an empty slice is not followed: any address will do, null too. Any other pointer is that of so
   many elements.

   Every function returns its number: 0, or that of the first refusal that applies, by the orders below the list. In a read
   they rise, so that there it is the number of refusal (the smallest that applies):

     1  lengths are not 2 or 3, or one is 0 or above 1,048,576
     2  text above 16,777,216 bytes
     3  no document of the markup grammar writes this text
     4  the root is not CIFTI with Version 2; of a GIFTI file: not GIFTI with Version 1.0
     5  a map of kind PARCELS
     6  an element, attribute, child, named word or non-blank text is not as the format says
     7  a number's form, limit or fixed value, or the sixteen of the transformation; a colour outside 0 to 1; malformed Base64
     8  some dimension is not listed exactly once, or a listed one does not exist
     9  a map's length is not that of a dimension it applies to; of a GIFTI file: its arrays are not as many as it says
    10  two models of a map share type and structure
    11  a model does not list as many numbers as it says, or an index of the map is in no range or in two
    12  a vertex or voxel is outside its surface or volume
    13  records lent are fewer than all stretches, or work space than the longest; of two sheets: work space than both counts
    14  a vertex twice in a model, or a voxel twice in a map; of two sheets: a location twice in one of them
    15  sheet count 0 or above 1,048,576; unpacking: also not a sheet
    16  an illegal record
    17  the slice to be written is too short
    18  map name: no such dimension, it is neither scalars nor labels, or the index is not below its length; keys and label
        names: the same of a dimension that is not labels; GIFTI keys: no such array
    19  find: no such record; asking a list: no such index or record; label name: no such key
    20  a file under 544 bytes; its size field or magic is not NIfTI-2's single file; a data offset below 544
    21  a file's dim[0] is not 6 or 7, one of dim[1] to dim[4] is not 1, or one of dim[5] to dim[dim[0]] is below 1
    22  the extensions up to a file's data offset are no list, or the data offset lies past its bytes
    23  a file has no extension of code 32
    24  a key twice in one label table
    25  the labels maps together list more than one dimension
    26  making a list: a type and structure comes back after another; asking: a bad list
    29  a GIFTI array of another encoding, intent or type than ASCII or Base64Binary, NIFTI_INTENT_LABEL, NIFTI_TYPE_INT32
    30  a GIFTI array does not hold as many keys as its Dim0
    31  a key of a GIFTI array that no Label of the table has
   In a call on a file 20 to 23 come first, in this order, and then those of the read, 1 to 14, 24, 25. A map name asks 1 to 9, 18, and
   all names of a dimension then 17; keys and label names 1 to 9, 24, 25, 18, and then 17 or 19; packing and unpacking 15, 16, 17; making a
   list 15, 16, 26, 17, and asking one 26, 19; two sheets 15, 16 of the first, 15, 16 of the second, 13, 14. Of a GIFTI label file the order
   is 2, 3, 4, 6, 29, 7, 9, 24, 18, 30, 31, 17.

   The slices `answer`, `part`, `place` and `count` take the rest of an answer. They are written on every
   call, refused or not, from their start; what lies past the numbers named below is left as it was. Where
   such a slice is too short it is left as it was, and everything else is done all the same. */
#ifndef DZWONOLIN_H
#define DZWONOLIN_H

#include <stddef.h>
#include <stdint.h>

/* The version of the library that this header is of. A change of the first number is one after which a caller has to be compiled
   again, and the shared library is named by it. */
#define DZ_VERSION "1.0.0"

#ifdef __cplusplus
extern "C" {
#endif

/* The words of the list above for a number that a function returned. tools/reasons writes the table from that list. */
static inline const char *dz_reason(uint64_t number)
{
    switch (number) {
    case 0: return "accepted";
    case 1: return "lengths are not 2 or 3, or one is 0 or above 1,048,576";
    case 2: return "text above 16,777,216 bytes";
    case 3: return "no document of the markup grammar writes this text";
    case 4: return "the root is not CIFTI with Version 2; of a GIFTI file: not GIFTI with Version 1.0";
    case 5: return "a map of kind PARCELS";
    case 6: return "an element, attribute, child, named word or non-blank text is not as the format says";
    case 7: return "a number's form, limit or fixed value, or the sixteen of the transformation; a colour outside 0 to 1; malformed Base64";
    case 8: return "some dimension is not listed exactly once, or a listed one does not exist";
    case 9: return "a map's length is not that of a dimension it applies to; of a GIFTI file: its arrays are not as many as it says";
    case 10: return "two models of a map share type and structure";
    case 11: return "a model does not list as many numbers as it says, or an index of the map is in no range or in two";
    case 12: return "a vertex or voxel is outside its surface or volume";
    case 13: return "records lent are fewer than all stretches, or work space than the longest; of two sheets: work space than both counts";
    case 14: return "a vertex twice in a model, or a voxel twice in a map; of two sheets: a location twice in one of them";
    case 15: return "sheet count 0 or above 1,048,576; unpacking: also not a sheet";
    case 16: return "an illegal record";
    case 17: return "the slice to be written is too short";
    case 18: return "map name: no such dimension, it is neither scalars nor labels, or the index is not below its length; keys and label "
        "names: the same of a dimension that is not labels; GIFTI keys: no such array";
    case 19: return "find: no such record; asking a list: no such index or record; label name: no such key";
    case 20: return "a file under 544 bytes; its size field or magic is not NIfTI-2's single file; a data offset below 544";
    case 21: return "a file's dim[0] is not 6 or 7, one of dim[1] to dim[4] is not 1, or one of dim[5] to dim[dim[0]] is below 1";
    case 22: return "the extensions up to a file's data offset are no list, or the data offset lies past its bytes";
    case 23: return "a file has no extension of code 32";
    case 24: return "a key twice in one label table";
    case 25: return "the labels maps together list more than one dimension";
    case 26: return "making a list: a type and structure comes back after another; asking: a bad list";
    case 29: return "a GIFTI array of another encoding, intent or type than ASCII or Base64Binary, NIFTI_INTENT_LABEL, NIFTI_TYPE_INT32";
    case 30: return "a GIFTI array does not hold as many keys as its Dim0";
    case 31: return "a key of a GIFTI array that no Label of the table has";
    default: return "not a number of refusal";
    }
}

/* An answer of dz_read: a head, then three dimensions; dimension d begins at DZ_HEAD + DZ_DIMENSION * d. Places that
   are not named below are 0, and kept for what is to come.
   Changed: an answer was 31 numbers before, a head of 1 and 10 of a dimension. The places in a dimension are the same, so
   a caller that goes by these names, and no longer begins dimension d at 1 + 10 * d, has only to be compiled again. */
#define DZ_HEAD 4
#define DZ_DIMENSION 16
#define DZ_ANSWER 52

/* Places in the head. */
enum { DZ_NUMBER = 0 };

/* Places in the numbers of a dimension. Amounts, powers and the exponent are in two's complement: read them
   as int64_t. A decimal is its amount times ten to its power: 2.0 is 20 with power -1, 7.2E-1 is 72 with power -2.
   CHANGED: DZ_START_POWER and DZ_STEP_POWER stand where DZ_START_PLACES and DZ_STEP_PLACES stood. One place is power -1,
   so a caller that still reads them as places gets the sign wrong; the old names are gone, so that it does not compile. */
enum {
    DZ_KIND = 0,         /* one of the five kinds below; 0 where there is no such dimension */
    DZ_LENGTH = 1,       /* length of the map */
    DZ_START = 2,        /* brain: where its stretch starts in the records; else 0 */
    DZ_START_AMOUNT = 3, /* series: SeriesStart; else 0, as the five below */
    DZ_START_POWER = 4,  /* from -45 to 45, below 0 in two's complement */
    DZ_STEP_AMOUNT = 5,  /* series: SeriesStep */
    DZ_STEP_POWER = 6,   /* the same */
    DZ_EXPONENT = 7,     /* series: SeriesExponent */
    DZ_UNIT = 8          /* series: 0 second, 1 hertz, 2 meter, 3 radian */
};
enum { DZ_NONE = 0, DZ_BRAIN = 1, DZ_SERIES = 2, DZ_SCALARS = 3, DZ_LABELS = 4 };

/* Reads a text with the lengths of its matrix into records. Refusals 1 to 14, 24 and 25.

   text, lengths   read only.
   records         accepted: each brain map fills one stretch, in text order of maps, from place 0 on, index n
                   of the map at the n-th place of its stretch; places past the last stretch are left as they
                   were. Refused: all left as it was. A record is 54 bits, most significant first: voxel flag
                   1, structure 5, payload 48 (surface: vertex number; voxel: i, j and k in 16 bits each).
                   Records of an older library have 40 bits and are not records of this one: keep tables as
                   sheets.
                   Room for the sum of the lengths is always enough.
   work            all zero after every call. Room for the largest of the lengths is always enough.
   answer          DZ_ANSWER numbers: the head and three dimensions, as above. Refused: all 0 but the number. With
                   fewer places only the returned number tells. */
uint64_t dz_read(const uint8_t *text, size_t text_len,
                 const uint64_t *lengths, size_t lengths_len,
                 uint64_t *records, size_t records_len,
                 uint64_t *work, size_t work_len,
                 uint64_t *answer, size_t answer_len);

/* The name of map `index` (from 0) along `dimension` (from 0): the part of the caller's text between its MapName
   tags, as written. Refusals 1 to 9, then 18.

   part            [0], [1] = where the part starts in the text, and its length; the part of <MapName/> is empty and
                   starts behind that tag. Refused: 0, 0. */
uint64_t dz_map_name(const uint8_t *text, size_t text_len,
                     const uint64_t *lengths, size_t lengths_len,
                     uint64_t dimension, uint64_t index,
                     uint64_t *part, size_t part_len);

/* The names of all maps along `dimension` (from 0), in one walk: the n-th is what dz_map_name tells for index n. Refusals 1 to 9,
   18 (no such dimension, or it is neither scalars nor labels), then 17.

   places          accepted: two numbers a name from its start, where the name starts in the text, and its length; the rest is
                   left as it was. Refused: all left as it was. Room for twice the length of the dimension is enough.
   count           [0] = how many names there are. Refused: 0. */
uint64_t dz_map_names(const uint8_t *text, size_t text_len,
                      const uint64_t *lengths, size_t lengths_len,
                      uint64_t dimension,
                      uint64_t *places, size_t places_len,
                      uint64_t *count, size_t count_len);

/* The keys of the label table of map `index` (from 0) along `dimension` (from 0), in text order. Refusals 1 to 9, 24, 25,
   18, then 17 where the list lent is short.

   keys            accepted: the keys, from the start; places past the last are left as they were. Refused: all left as
                   it was.
   count           [0] = how many keys were written. Refused: 0. */
uint64_t dz_label_keys(const uint8_t *text, size_t text_len,
                       const uint64_t *lengths, size_t lengths_len,
                       uint64_t dimension, uint64_t index,
                       int32_t *keys, size_t keys_len,
                       uint64_t *count, size_t count_len);

/* The name of a key in that table: the part of the caller's text between the tags of its Label, as written. Refusals 1 to
   9, 24, 25, 18, then 19 where no Label has the key.

   part            [0], [1] = where the part starts in the text, and its length; the part of <Label ../> is empty and
                   starts behind that tag. Refused: 0, 0. */
uint64_t dz_label_name(const uint8_t *text, size_t text_len,
                       const uint64_t *lengths, size_t lengths_len,
                       uint64_t dimension, uint64_t index,
                       int32_t key,
                       uint64_t *part, size_t part_len);

/* The keys of one array of a GIFTI label file, named by its place from 0: a text with a table of labels and arrays of their keys, in
   ASCII or in Base64 of either order of bytes. Refusals 2, 3, 4, 6, 29, 7, 9, 24, 18, 30, 31, and then 17 where the list lent is
   short; the first of this order that applies. But for 18 and 17 they are of all arrays, whichever is asked for.

   keys            accepted: the keys, from the start; places past the last are left as they were. Refused: all left as
                   it was. Room for 1,048,576 keys is always enough.
   count           [0] = how many keys were written. Refused: 0. */
uint64_t dz_gifti_keys(const uint8_t *text, size_t text_len,
                       uint64_t array,
                       int32_t *keys, size_t keys_len,
                       uint64_t *count, size_t count_len);

/* The first place of a number in the records. Refusal 19.

   place           [0] = the place, from 0. Refused: 0. */
uint64_t dz_find(const uint64_t *records, size_t records_len,
                 uint64_t number,
                 uint64_t *place, size_t place_len);

/* Packs all records lent into a sheet: a byte 7, the count in 3 bytes, then 7 bytes for each record, most
   significant first, each record ended by two zero bits. Refusals 15, 16, 17 in that order.

   sheet           accepted: its first 4 + 7 * records_len bytes are the sheet, the rest is left as it was.
                   Refused: all left as it was.
   count           [0] = bytes written. Refused: 0. */
uint64_t dz_pack(const uint64_t *records, size_t records_len,
                 uint8_t *sheet, size_t sheet_len,
                 uint64_t *count, size_t count_len);

/* Unpacks a whole sheet: one of 7 bytes a record, or one of 5 as older libraries write them, whose records
   come out as the records of the same locations. Refusals 15, 16, 17 in that order.

   records         accepted: the sheet's records from place 0 on, the rest is left as it was. Refused: all left
                   as it was.
   count           [0] = records written. Refused: 0. */
uint64_t dz_unpack(const uint8_t *sheet, size_t sheet_len,
                   uint64_t *records, size_t records_len,
                   uint64_t *count, size_t count_len);

/* The front of a NIfTI-2 file (.nii), in either byte order: the lengths of its matrix, and the part of its bytes that
   is the header text, the body of its first extension of code 32 without the zero bytes at its end. Refusals 20 to 23.
   Where the data offset is not past the bytes, the bytes behind it do not count: give only those before it if you like.

   front           DZ_FRONT numbers, as below. Refused: all 0. */
#define DZ_FRONT 6
enum {
    DZ_FRONT_COUNT = 0,   /* how many lengths: 2 or 3 */
    DZ_FRONT_LENGTHS = 1, /* dim[5], dim[6] and dim[7], or 0 for a third that is not there */
    DZ_FRONT_START = 4,   /* where the part starts in the file */
    DZ_FRONT_LENGTH = 5   /* and its length */
};
uint64_t dz_front(const uint8_t *file, size_t file_len,
                  uint64_t *front, size_t front_len);

/* Reads a NIfTI-2 file: its front, and then as dz_read of its part with its lengths. Refusals 20 to 23, then 1 to 14.
   The slices are as those of dz_read. */
uint64_t dz_read_file(const uint8_t *file, size_t file_len,
                      uint64_t *records, size_t records_len,
                      uint64_t *work, size_t work_len,
                      uint64_t *answer, size_t answer_len);

/* The name of a map of a NIfTI-2 file, as dz_map_name of its part with its lengths. Refusals 20 to 23, 1 to 9, then 18.

   part            [0], [1] = where the name starts in the file, and its length. Refused: 0, 0. */
uint64_t dz_file_map_name(const uint8_t *file, size_t file_len,
                          uint64_t dimension, uint64_t index,
                          uint64_t *part, size_t part_len);

/* The short list of the models of one brain map's records: four numbers a model, first index, count, type
   (0 surface, 1 voxels) and structure. Refusals 15, 16, 26, 17 in that order.

   list            accepted: four numbers for each model from its start, the rest is left as it was. Refused: all left
                   as it was. Room for 64 models is always enough; of a length that is no multiple of four the whole
                   models that fit count.
   count           [0] = how many models there are. Refused: 0. */
uint64_t dz_model_list(const uint64_t *records, size_t records_len,
                       uint64_t *list, size_t list_len,
                       uint64_t *count, size_t count_len);

/* The type and structure at an index, from a list alone. Refusals 26 (a bad list, a type above 1, or a length that is
   no multiple of four), then 19.

   answer          [0], [1] = type and structure. Refused: 0, 0. */
uint64_t dz_structure_at(const uint64_t *list, size_t list_len,
                         uint64_t index,
                         uint64_t *answer, size_t answer_len);

/* The index of a record, looked for in the stretch of its own type and structure. Refusals 26 (also a list that reaches
   past the records), then 19.

   place           [0] = the index. Refused: 0. */
uint64_t dz_index_of(const uint64_t *list, size_t list_len,
                     const uint64_t *records, size_t records_len,
                     uint64_t number,
                     uint64_t *place, size_t place_len);

/* Two sheets side by side, each of 5 or of 7 bytes a record. A location is type, structure and numbers together. Refusals
   15, 16 of the first sheet, then of the second, then 13, then 14 for a location twice in either.

   work            all zero after every call. Room for both counts together is always enough.
   counts          [0] = locations at the same index in both, [1] = in both but at another index, [2] = in the first
                   only, [3] = in the second only. Refused: all 0. */
uint64_t dz_compare(const uint8_t *first, size_t first_len,
                    const uint8_t *second, size_t second_len,
                    uint64_t *work, size_t work_len,
                    uint64_t *counts, size_t counts_len);

/* The part of the sheet with more records that the other has no place for, in its own width; of equal counts an empty
   part of the first. Refusals and work as those of dz_compare.

   part            [0] = 0 for the first sheet, 1 for the second; [1], [2] = where the part starts in it, and its length.
                   Refused: 0, 0, 0. */
uint64_t dz_tail(const uint8_t *first, size_t first_len,
                 const uint8_t *second, size_t second_len,
                 uint64_t *work, size_t work_len,
                 uint64_t *part, size_t part_len);

#ifdef __cplusplus
}
#endif

#endif
