# port.c: the encryption key is derived where the signing key is wanted
s/derived(mesh_signing_key)/derived(mesh_encryption_key)/
