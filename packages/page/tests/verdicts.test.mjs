// What the page says of tokens, in Chromium.

import { Browser } from "./browser.mjs";
import { testVerdicts } from "./verdicts.mjs";

testVerdicts(() => Browser.start());
