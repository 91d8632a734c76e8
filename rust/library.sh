# For bash to read in, in the project's folder: cargo takes the library that bin/library makes, and none that is installed. A warning is an error;
# one set of flags for all that is built in target/rust, so that nothing is built twice.
export OPEN_PANEL_LIB_DIR=$PWD/target/library PKG_CONFIG_PATH= PKG_CONFIG_LIBDIR=$PWD/target/none CARGO_TARGET_DIR=$PWD/target/rust RUSTFLAGS='-D warnings'
