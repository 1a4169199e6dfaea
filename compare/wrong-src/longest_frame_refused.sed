# mesh.h: a mesh frame of 8,192 bytes is refused
s/^    return mesh_read_mesh(\(.*\));$/    return n == MESH_FRAME_MOST ? MESH_FRAME_LONG : mesh_read_mesh(\1);/
