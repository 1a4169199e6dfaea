# mesh.h: a record is made with the last three bytes of the relay id
s/^    return mesh_record(\(.*\));$/    uint8_t r = mesh_record(\1); if (r == 0) known->relay_id \&= 0xffffff; return r;/
