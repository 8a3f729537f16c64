//! nebari's files are what was published.
use std::process::Command;

#[test]
fn the_four_files_have_their_checksums() {
    let folder = concat!(env!("CARGO_MANIFEST_DIR"), "/nebari/original");
    let sums = std::fs::read_to_string(format!("{folder}/SHA256SUMS")).unwrap();
    let published = [
        "144c10a125be4da8dae64d54d5eddf5124bcf90251ab4bfb9016c99ab8c04de4  transaction/log.rs",
        "915275bd52d6c3d08801d1d0003442e3be5adcdf89e232d89ef33d665ce50ab3  transaction/state.rs",
        "47b86c3558dd9b806529e51f40ea59791dd147c93966791a975c301b35bd8a8f  transaction/manager.rs",
        "b2693b5851ab3d6069c8691c71c0d22f017594f0a61887099cf3d5ef6181f1e3  vault.rs",
    ];
    assert_eq!(sums.lines().collect::<Vec<_>>(), published);
    let status = Command::new("sha256sum").args(["--check", "--strict", "SHA256SUMS"]).current_dir(folder).status();
    assert!(status.expect("sha256sum").success());
}
