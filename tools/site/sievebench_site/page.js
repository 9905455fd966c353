"use strict";
// Sorts the table of mails, and shows only what has the words that are looked for. Without it all is there to be read.
(() => {
  const table = document.getElementById("table");
  const make = (name, into, text) => {
    const made = document.createElement(name);
    made.textContent = text || "";
    into.append(made);
    return made;
  };

  // Each row of the table, with its section below: the words of both, and its mails.
  const rows = [...table.tBodies[0].rows].map((row) => {
    const section = document.querySelector(row.querySelector("a").hash);
    const mails = [...section.querySelector("table.mails").tBodies[0].rows];
    const words = row.textContent + " " + section.querySelector("table").textContent;
    return { row, section, words: words.toLowerCase(), mails: mails.map((mail) => ({ mail, words: mail.textContent.toLowerCase() })) };
  });

  const tools = document.createElement("form");
  tools.className = "tools";
  tools.setAttribute("role", "search");
  table.closest(".frame").before(tools);
  const label = make("label", tools, "Find a mail, a user or a mailbox ");
  const input = make("input", label);
  input.type = "search";
  input.id = "find";
  const opener = make("button", tools, "Open all that is folded");
  opener.type = "button";
  const told = make("output", tools);
  told.id = "found";
  told.setAttribute("aria-live", "polite");

  const find = () => {
    const words = input.value.toLowerCase().split(/\s+/).filter(Boolean);
    let count = 0;
    for (const it of rows) {
      let found = 0;
      for (const { mail, words: own } of it.mails) {
        const fits = words.every((word) => own.includes(word) || it.words.includes(word));
        mail.hidden = !fits;
        found += fits;
      }
      it.row.hidden = it.section.hidden = !found;
      const folded = it.section.querySelector("details");
      if (folded && words.length) folded.open = found > 0 && found < it.mails.length;
      count += found;
    }
    told.value = words.length ? `${count} found` : "";
  };
  input.addEventListener("input", find);
  input.addEventListener("change", find);
  tools.addEventListener("submit", (event) => event.preventDefault());
  opener.addEventListener("click", () => {
    for (const it of document.querySelectorAll("details")) it.open = true;
  });

  // A button in the head of each column sorts by it, and at the second time the other way round.
  const heads = [...table.tHead.rows[0].cells];
  const value = (row, column) => {
    const cell = row.cells[column];
    return cell.dataset.rank === undefined ? cell.textContent : Number(cell.dataset.rank);
  };
  const compare = (one, other) => (typeof one === "number" ? one - other : one.localeCompare(other));
  heads.forEach((head, column) => {
    const text = head.textContent;
    head.textContent = "";
    make("button", head, text).addEventListener("click", () => {
      const way = head.getAttribute("aria-sort") === "ascending" ? -1 : 1;
      heads.forEach((it) => it.removeAttribute("aria-sort"));
      head.setAttribute("aria-sort", way > 0 ? "ascending" : "descending");
      const sorted = rows.map((it) => it.row).sort((one, other) => way * compare(value(one, column), value(other, column)));
      table.tBodies[0].append(...sorted);
    });
  });

  // Where a link leads into what is folded or hidden, that is shown.
  const reveal = () => {
    const goal = document.getElementById(decodeURIComponent(location.hash.slice(1)));
    if (!goal) return;
    for (let it = goal; it; it = it.parentElement) {
      if (it.localName === "details") it.open = true;
      it.hidden = false;
    }
    goal.scrollIntoView();
  };
  window.addEventListener("hashchange", reveal);
  reveal();
})();
