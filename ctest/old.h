/* The pick and the page by the old numbering with the parameters of those that take a map, so that a test runs over all of them. What they
 * are told of a map is dropped here. */

static uint8_t old_pick(const uint8_t *candidates, size_t candidates_len, const uint64_t *occupied, size_t occupied_len, size_t max,
                        uint8_t has_map, const uint8_t *map, size_t map_len, uint16_t *picks, size_t picks_len, uint64_t *groups,
                        size_t groups_len, size_t *total, size_t *first, size_t *examined, uint64_t *instructions) {
    (void)has_map;
    (void)map;
    (void)map_len;
    return corbastrigo_old_prefix_pick(candidates, candidates_len, occupied, occupied_len, max, picks, picks_len, groups, groups_len,
                                       total, first, examined, instructions);
}

static uint8_t old_page(const uint8_t *candidates, size_t candidates_len, uint8_t has_map, const uint8_t *map, size_t map_len,
                        uint8_t *out, size_t out_len, size_t *written) {
    (void)has_map;
    (void)map;
    (void)map_len;
    return corbastrigo_old_prefix_page(candidates, candidates_len, out, out_len, written);
}
