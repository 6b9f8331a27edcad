// ==UserScript==
// @name a
// @grant GM_log
// ==/UserScript==
GM_log(document.title);
GM_log(42);
GM_log("Hello from a userscript");
