#!/usr/bin/env node
// Begins the command nissy. It is written so that each node can parse it, and says if this one is too old for the rest.
"use strict";

var OLDEST = 18;

if (parseInt(process.versions.node, 10) < OLDEST) {
  process.stderr.write(
    "nissy: this is node " + process.versions.node + ", and nissy needs node " + OLDEST + " or a later one\n"
  );
  process.exitCode = 3;
} else {
  require("./command-start.cjs");
}
