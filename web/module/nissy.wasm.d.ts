// What an import of the module is, by the bundler: its bytes, its address as a string, or what they are compiled to.
declare const module: any;
export default module;
