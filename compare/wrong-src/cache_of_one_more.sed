# port.c: a cache holds one record more than its size
/^static uint8_t do_cacherec/,/^}/s/mesh_cache_clear(c.words, size)/mesh_cache_clear(c.words, size + (size > 0 \&\& size < MESH_CACHE_MOST))/
