# mesh.h: a record is added to the cache with the low half of its relay id
s/^    uint8_t r = mesh_cache_add(c->words, (const uint64_t \*)known, &flag);$/    mesh_record_of half = *known; half.relay_id \&= 0xffff; uint8_t r = mesh_cache_add(c->words, (const uint64_t *)\&half, \&flag);/
