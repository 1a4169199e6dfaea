# mesh.h: the timestamp is left out of records
s/^    return mesh_record(\(.*\));$/    uint8_t r = mesh_record(\1); if (r == 0) known->timestamp = 0; return r;/
