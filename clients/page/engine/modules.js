// Made by clients/page/build: what made the modules, the prover's verdict, and their sums.
export const MODULES = {
  "kit": "rattle-kit-13f logic dac8208d650f15bf",
  "binaryen": "wasm-opt version 108",
  "verdict": "logic=proved functions=15 target=wasm64-unknown-unknown sum=dac8208d650f15bf native=nat,char,string logic-built=trusted libraries-built=trusted statements=trusted incremental=trusted",
  "integrity": {
    "page64.wasm": "sha256-0ZAZI8WnF4sr/c2Xarcz8qCIsS+YP2yt0eT5ngue53s=",
    "page32.wasm": "sha256-KrnY5thHC6ovzkJ5xMC1Jxtl2Tm/RQS2rc0uz7FUSrg="
  }
};
