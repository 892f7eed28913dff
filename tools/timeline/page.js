// The record that is looked at: chosen by focus, arrow keys or a click; the pointer shows another one for as long as it is there.
(() => {
  const columns = [...document.querySelectorAll(".screen .col")];
  const box = document.getElementById("box");
  const panel = document.getElementById("panel");
  if (!columns.length) return;
  let chosen = null;
  if (innerWidth < 640) document.querySelector(".legend").open = false;

  // what the panel tells stands in the table's row
  function show(column) {
    const [number, text, line, words, note] = document.getElementById(column.dataset.row).cells;
    const top = document.createElement("p");
    top.className = "top";
    const head = document.createElement("b");
    head.textContent = "Record " + number.textContent;
    top.append(head, ...[text, line].flatMap((cell) => [...cell.cloneNode(true).childNodes]));
    top.insertBefore(document.createTextNode("⇒"), top.children[2] || null);
    panel.replaceChildren(top, ...words.cloneNode(true).childNodes);
    if (note && note.textContent) {
      const from = document.createElement("p");
      from.className = "from";
      from.textContent = "The file’s note: " + note.textContent;
      panel.append(from);
    }
  }

  function bring(column) {
    const place = column.querySelector("rect");
    const left = Number(place.getAttribute("x")), right = left + Number(place.getAttribute("width")), room = 40;
    if (left - room < box.scrollLeft) box.scrollLeft = left - room;
    else if (right + room > box.scrollLeft + box.clientWidth) box.scrollLeft = right + room - box.clientWidth;
  }

  function choose(column) {
    if (chosen) {
      chosen.setAttribute("aria-selected", "false");
      chosen.setAttribute("tabindex", "-1");
    }
    columns[0].setAttribute("tabindex", "-1");
    chosen = column;
    chosen.setAttribute("aria-selected", "true");
    chosen.setAttribute("tabindex", "0");
    bring(chosen);
    show(chosen);
  }

  const steps = { ArrowRight: 1, ArrowLeft: -1, PageDown: 10, PageUp: -10, Home: -Infinity, End: Infinity };
  columns.forEach((column, at) => {
    column.addEventListener("focus", () => choose(column));
    column.addEventListener("click", () => column.focus({ preventScroll: true }));
    column.addEventListener("pointerenter", () => show(column));
    column.addEventListener("keydown", (event) => {
      if (!(event.key in steps) || event.ctrlKey || event.metaKey || event.altKey) return;
      event.preventDefault();
      columns[Math.max(0, Math.min(columns.length - 1, at + steps[event.key]))].focus({ preventScroll: true });
    });
  });
  box.addEventListener("pointerleave", () => chosen && show(chosen));

  // a link to a record chooses it, and so does an address that ends with it
  const named = columns.find((column) => "#" + column.id === location.hash);
  if (named) choose(named);
  document.addEventListener("click", (event) => {
    const link = event.target.closest('a[href^="#c"]');
    const column = link && document.getElementById(link.hash.slice(1));
    if (!column) return;
    event.preventDefault();
    column.closest(".chart").scrollIntoView({ block: "nearest" });
    column.focus({ preventScroll: true });
  });
})();
