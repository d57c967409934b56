//! Links `libwurstdrape.a` and `libwurstdrape_issue.a` of the folder that `WURSTDRAPE` names.

fn main() {
    println!("cargo:rerun-if-env-changed=WURSTDRAPE");
    let folder = std::env::var("WURSTDRAPE").expect(
        "set WURSTDRAPE to the folder of libwurstdrape.a (bindings/build.sh FOLDER makes it)",
    );
    println!("cargo:rustc-link-search=native={folder}");
    for name in ["wurstdrape", "wurstdrape_issue"] {
        println!("cargo:rerun-if-changed={folder}/lib{name}.a");
        println!("cargo:rustc-link-lib=static={name}");
    }
}
