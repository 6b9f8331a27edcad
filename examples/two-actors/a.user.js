// ==UserScript==
// @name greeter
// @grant GM_log
// ==/UserScript==
GM_log(document.title);
document.title = document.title + " again";
