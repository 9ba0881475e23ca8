/** Where the modules of this package are, for `Engine.openFirst`. That of a release has them, and the folder of the repository has none. */
export const modules = ["wasm64", "wasm32"].map((kind) => new URL(`../${kind}.wasm`, import.meta.url));
