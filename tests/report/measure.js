// For .ci/report: in a copy of the page, in a frame, it looks at the layout that the browser made, and tells the page around it what it
// finds. Every folded part is opened first. NAME is the page's name.
(function () {
    "use strict";
    const SMALLEST = 11; // px
    const faults = [];
    for (const folded of document.querySelectorAll("details")) folded.open = true;
    const wide = document.documentElement.scrollWidth;
    if (wide > window.innerWidth) faults.push("page of " + wide);

    const seen = (e) => e.getClientRects().length > 0;
    const words = (e) => [...e.childNodes].some((n) => n.nodeType === 3 && n.data.trim() !== "");
    for (const e of document.body.querySelectorAll("*")) {
        if (!words(e) || !seen(e) || e.closest("svg")) continue;
        if (parseFloat(getComputedStyle(e).fontSize) < SMALLEST) faults.push("text too small: " + e.textContent.slice(0, 30));
        let faint = false;
        for (let a = e; a; a = a.parentElement) faint = faint || getComputedStyle(a).opacity !== "1";
        if (faint) faults.push("faint: " + e.textContent.slice(0, 30));
        const r = e.getBoundingClientRect();
        if (!e.closest(".box") && (r.left < -1 || r.right > window.innerWidth + 1)) faults.push("cut: " + e.textContent.slice(0, 30));
    }
    for (const box of document.querySelectorAll(".axis, .plot, .bar")) {
        const labels = [...box.querySelectorAll("span")].filter(seen).map((e) => e.getBoundingClientRect());
        labels.forEach((a, i) => labels.slice(i + 1).forEach((b) => {
            const over = a.left < b.right && b.left < a.right && a.top < b.bottom && b.top < a.bottom;
            if (over) faults.push("labels over each other in ." + box.className);
        }));
    }
    const well = "as wide as the window, text of 11 px and more and not faint, no label over another, none cut";
    const told = faults.length ? faults.slice(0, 3).join("; ") : well;
    parent.postMessage(NAME + " in " + window.innerWidth + ": " + told, "*");
})();
