# port.c: reading ends at a heartbeat that is skipped
s/^        if (it.found != MESH_KEPT) continue;/        if (it.found != MESH_KEPT) break;/
