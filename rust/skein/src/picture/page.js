const rows = [...document.querySelectorAll("tr[data-path]")];
const folded = new Set();
const below = (path, above) => path !== above && (above === "/" || path.startsWith(above + "/"));
const filter = document.getElementById("filter");
function show() {
  const wanted = filter.value.toLowerCase();
  for (const row of rows) {
    const path = row.dataset.path;
    const hidden = [...folded].some((above) => below(path, above));
    row.hidden = wanted ? !path.toLowerCase().includes(wanted) : hidden;
  }
}
filter.addEventListener("input", show);
for (const row of rows) {
  const button = row.querySelector("button");
  if (!button) continue;
  button.addEventListener("click", () => {
    const path = row.dataset.path;
    const open = folded.delete(path);
    if (!open) folded.add(path);
    button.textContent = open ? "\u25be" : "\u25b8";
    button.setAttribute("aria-expanded", String(open));
    show();
  });
}
