fn main() {
    let lib = std::env::var("MESH_C").expect("MESH_C: the folder of libmesh_c.a");
    println!("cargo:rerun-if-env-changed=MESH_C");
    println!("cargo:rerun-if-changed={lib}/libmesh_c.a");
    println!("cargo:rustc-link-search=native={lib}");
    println!("cargo:rustc-link-lib=static=mesh_c");
}
