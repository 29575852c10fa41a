/* The C interface: Pfafstetter labels of river basins. README.md says what the numbers mean.
   A slice is a pointer and its length; nothing beyond that length is touched. The slices of one call must not overlap.

   A label is a record of two 64-bit numbers: its first 18 digits as one decimal number, then the next ones, the 19th to
   the 36th, as another, 0 if there are none. No digits at all are 0 and 0. Text shows the digits of both joined. A call
   takes a single label as two arguments, first and rest. In a slice of labels a record is two neighbouring numbers,
   first and rest. The length of such a slice (labels_len, units_len, p_len, q_len, index_len, plan_len) counts numbers,
   so that n labels need 2n; each record is one place, and an odd number at the end is no place: it is neither looked at
   nor changed.

   A sheet may hold several basins. They are numbered from 1 by their outlets in reading order; a cell is in the basin
   of the outlet that its water comes to. The areas and labels of a basin are those that it has where the cells of all
   others are set to 0. So labels of different basins may be equal, and a label says which cells are meant only together
   with the number of its basin: where a call takes a label, it takes that number too, and beside a slice of labels
   stands a slice of these numbers, one place a label. Only pf_check_plan takes none, since all its labels are of one
   basin. */
#ifndef PFAFSTETTER_H
#define PFAFSTETTER_H

#include <stddef.h>
#include <stdint.h>

#ifdef __cplusplus
extern "C" {
#endif

/* Labels a sheet of rows x cols direction codes (1 to 256 each) to a depth of 1 to 36 digits. Each row has a weight, 1
   to 1000, from row 0. The area of a cell is the sum of the weights of the cells whose water passes it, at most
   65,536,000; with the weight 1 for every row it is their count. A mouth, the last cell of a tributary, is counted in a
   split if its area is not below least, 1 to 65,536,000. Of the counted mouths the heaviest are taken, as many as split
   says, 1 to 4, or all if fewer, and give their tributaries digits of their own. The others stay, with all that drains
   through them, in the stretch of the river that they flow into; a stretch without counted mouths is split no further.
   With least 1 every mouth is counted. The call needs n = rows x cols directions, areas, labels (labels_len of 2n or
   more) and basins, one weight for each row, and 8n work places; more may be lent, and what stands past these counts is
   neither looked at nor changed. Returns 0, and has written the first n areas, labels (labels[2c] and labels[2c + 1]
   for the cell c) and basins (the number of the cell's basin); an outside cell has area 0, label 0 and 0, and basin 0.
   Or returns refusal number + 256 x place, and has written none. The refusals are tried in this order: 1, 2, 19 (least
   or split out of its bounds; place 0), 3, 17 (a weight outside 1 to 1000, in any row; place 0), 4, 5, 6. The first 8n
   work places are 0 afterwards, unless the refusal was 1, 2, 19 or 3: then none is written. */
uint64_t pf_label(size_t rows, size_t cols, size_t depth, size_t least, size_t split, const uint8_t *dirs,
                  size_t dirs_len, const uint16_t *weights, size_t weights_len, uint32_t *areas, size_t areas_len,
                  uint64_t *labels, size_t labels_len, uint32_t *basins, size_t basins_len, uint32_t *work,
                  size_t work_len);

/* Labels a sheet as pf_label does and fills its index: for each basin, the first one first, the distinct labels of its
   cells in dictionary order of their digits (a label that begins another stands before it), each with its outlet, the
   cell to which the cells of this basin with this label drain, the count of these cells, whatever their weights, and
   the number of the basin. units (for the labels), outlets, counts and unit_basins need one place for each unit, and a
   place of units is two numbers; rows x cols places are always enough. Accepted, the lowest byte of the answer is 0 and
   the rest (answer / 256) is the number of units; so many places of the four slices are written, units[2k] and
   units[2k + 1] for the label of outlets[k], and the others keep their values. Otherwise it is refusal number + 256 x
   place, first those of pf_label, then 3 (place 0) if one of the four slices is too short, and none of their places is
   written; with that last refusal areas, labels, basins and work places are as after an accepted pf_label. */
uint64_t pf_index(size_t rows, size_t cols, size_t depth, size_t least, size_t split, const uint8_t *dirs,
                  size_t dirs_len, const uint16_t *weights, size_t weights_len, uint32_t *areas, size_t areas_len,
                  uint64_t *labels, size_t labels_len, uint32_t *basins, size_t basins_len, uint32_t *work,
                  size_t work_len, uint64_t *units, size_t units_len, uint32_t *outlets, size_t outlets_len,
                  uint32_t *counts, size_t counts_len, uint32_t *unit_basins, size_t unit_basins_len);

/* Shares a total of whole cents among the units of one basin by the weights of their cells. The call is pf_index's with
   the number of the basin, the total, 0 to 100,000,000,000 cents, and a fifth slice, dues, that needs one place for
   each unit of that basin. With S(k) the summed weight of the cells of the basin's first k units in the index's order
   and A that of all its cells, dues[k - 1], the due of the basin's k-th unit, is the whole part of total x S(k) / A,
   less the whole part of total x S(k - 1) / A. The dues add up to the total, and each lies less than one cent from its
   exact share, total x (weight of the unit's cells) / A. A basin that the sheet lacks, 0 among them, is not refused:
   the index is filled, and no due is written. Returns as pf_index does, the number of units of all basins; the refusals
   are 18 (a larger total; nothing at all is written), then those of pf_label, then 3 (place 0) if one of the four
   slices of the index is too short for it, or dues for the units of the basin. Refused, no place of the five slices is
   written; with that last refusal areas, labels, basins and work places are as after an accepted pf_label. */
uint64_t pf_levy(size_t rows, size_t cols, size_t depth, size_t least, size_t split, const uint8_t *dirs,
                 size_t dirs_len, const uint16_t *weights, size_t weights_len, uint32_t *areas, size_t areas_len,
                 uint64_t *labels, size_t labels_len, uint32_t *basins, size_t basins_len, uint32_t *work,
                 size_t work_len, uint64_t *units, size_t units_len, uint32_t *outlets, size_t outlets_len,
                 uint32_t *counts, size_t counts_len, uint32_t *unit_basins, size_t unit_basins_len, uint32_t basin,
                 uint64_t total, uint64_t *dues, size_t dues_len);

/* Finds the labels of one basin that begin with the leading digits (0 and 0 for none) in a slice that rises strictly by
   basin and then in dictionary order, such as the labels of an index. basins[k] is the basin of labels[2k] and the
   number after it; basins past the last record are not looked at. The leading digits stand as those of a label do; the
   number of the basin may be any. Returns 0: they are the labels from start on, length of them, both counted in labels:
   the first is labels[2 * start] and the number after it. Where there are none, length is 0 and start is the place that
   they would take. Or returns a refusal, and start and length are 0: 3 if there are fewer basins than records, then 11
   if the leading digits or an entry are no label of up to 36 digits, then 16 if the slice does not rise strictly. start
   and length each point to one number; these must not overlap each other or the slices. */
uint32_t pf_lookup(uint32_t basin, uint64_t first, uint64_t rest, const uint64_t *labels, size_t labels_len,
                   const uint32_t *basins, size_t basins_len, size_t *start, size_t *length);

/* Does water from the label q pass the label p? Each has the number of its basin, p_basin and q_basin; any numbers may
   stand there. Depth and least are those that the labels were made with (1 for another least can give a false Yes);
   split does not matter. 0 No, 1 Yes, 2 Same, 3 Undecided, 128 + refusal number. Where the digit rule is met the answer
   is Yes if least is 1 and p has fewer digits than the depth, otherwise Undecided, since some cells labelled p may lie
   in a tributary of the river that the water goes along. Tried in this order: 2, 19 (least outside 1 to 65,536,000),
   11 (for both labels), No if the basins differ, Same, 12, and then the rule. 11 is for a digit 0 in either number, for
   more digits than the depth in both together, for a rest other than 0 beside a first of fewer than 18 digits, and for
   more than 18 digits in either number. */
uint32_t pf_flow(size_t depth, size_t least, uint32_t p_basin, uint64_t p_first, uint64_t p_rest, uint32_t q_basin,
                 uint64_t q_first, uint64_t q_rest);

/* The flow question for many pairs: the i-th label of p (p[2i] and p[2i + 1], of the basin p_basins[i]) and the i-th of
   q, for each i below the smaller of p_len / 2 and q_len / 2, whole parts. The byte answers[i] becomes the number that
   pf_flow gives for that pair; a refused pair stops no other. Accepted, the lowest byte of the returned number is 0 and
   the rest (the number / 256) is the count of pairs; so many bytes are written, the others keep their values. Otherwise
   it is the refusal's number, and nothing is written: 2 for the depth, then 19 for least, then 3 if p_basins_len,
   q_basins_len or answers_len is smaller than the count of pairs. (A count of 2^56 or more would be told without its
   highest bits; no memory holds so many labels.) */
uint64_t pf_flow_pairs(size_t depth, size_t least, const uint64_t *p, size_t p_len, const uint32_t *p_basins,
                       size_t p_basins_len, const uint64_t *q, size_t q_len, const uint32_t *q_basins,
                       size_t q_basins_len, uint8_t *answers, size_t answers_len);

/* Does water from the label q pass the outlet of the unit that the label p names in its basin? That outlet is the cell
   to which the cells of p_basin labelled p drain, as pf_index lists it. The answer is the same for every least and
   split. 0 No, 1 Yes, 2 Same (the water passes the outlet then too), 128 + refusal number; never 3. Tried in this
   order: 2, 11, No if the basins differ, Same, 12, and then the rule. */
uint32_t pf_outlet_flow(size_t depth, uint32_t p_basin, uint64_t p_first, uint64_t p_rest, uint32_t q_basin,
                        uint64_t q_first, uint64_t q_rest);

/* Checks a survey plan, a list of unit labels of one basin, by which its units are gauged from the headwaters down.
   index holds the labels of that basin, as pf_index lists them; in an index of several basins they are neighbours. The
   plan is accepted exactly if each of these units stands in it once, after every other one whose water passes its
   outlet, by the rule of pf_outlet_flow. work needs one place for each label of index. Returns 0, or refusal number +
   256 x place. index is judged first, as a whole and in this order, each with place 0: 11 if one of its records is no
   label of up to 36 digits, 16 if it does not rise strictly in dictionary order, 12 if one of its labels begins
   another, 3 if there are fewer work places than labels in it. Then the plan is read from its first record on; the
   first one that is refused is told with its place in the plan, from 1: by 20 if it is no label of index, or has stood
   at an earlier place; otherwise by 21 if another unit whose water passes its outlet has not come at an earlier place.
   A record that is no label at all is refused by 20 too. After the last one 22, if a unit is missing from the plan,
   with the place in index, from 1, of the first that is missing. The first work places, one for each label of index,
   are 0 afterwards, accepted or refused, unless the refusal was 11, 16, 12 or 3: then none is written. What stands past
   them keeps its values, and what stood in them before does not matter. */
uint64_t pf_check_plan(const uint64_t *index, size_t index_len, const uint64_t *plan, size_t plan_len, uint32_t *work,
                       size_t work_len);

/* Eight directions as one word, the first in its lowest byte: the place, 0 to 7, of the first that is none of the nine
   codes, or 8 if all are codes. */
uint32_t pf_first_bad(uint64_t word);

#ifdef __cplusplus
}
#endif

#endif
