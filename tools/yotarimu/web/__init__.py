"""Both proved programs as WebAssembly modules, a page that has them inside, and a command line of the same modules."""
