// ==UserScript==
// @name reader
// @grant GM_log
// ==/UserScript==
GM_log(document.title);
