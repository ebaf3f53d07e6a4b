// Whether the engine has instructions on vectors: it takes a module with nothing but one of them.

const OF_VECTORS = [0, 97, 115, 109, 1, 0, 0, 0, 1, 5, 1, 96, 0, 1, 123, 3, 2, 1, 0, 10, 10, 1, 8, 0, 65, 0, 253, 15, 253, 98, 11];
export const HAS_VECTORS = WebAssembly.validate(new Uint8Array(OF_VECTORS));
