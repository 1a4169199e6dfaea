# port.c: events are sealed and opened with the key stream of commands
s/mesh_stream(key, is_command, /mesh_stream(key, true, /
