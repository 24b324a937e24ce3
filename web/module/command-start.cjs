// Loads the command, by words that an old node can't parse.
"use strict";

import("./command/command.js");
