"use strict";
// A click on a column's name sorts the table by it, a second click the other way round. The address keeps it: #sort=5
// or #sort=-5, the columns counted from 1.
const table = document.getElementById("sheets");
const heads = Array.from(table.tHead.rows[0].cells);

function sortBy(column, descending) {
  const isNumber = heads[column].dataset.sort === "number";
  const key = (row) => {
    const text = row.cells[column].textContent;
    return isNumber ? (text === "" ? -Infinity : Number(text)) : text;
  };
  const rows = Array.from(table.tBodies[0].rows, (row) => [key(row), row]);
  const compare = (a, b) => (a < b ? -1 : a > b ? 1 : 0);
  rows.sort((a, b) => (descending ? compare(b[0], a[0]) : compare(a[0], b[0])));
  table.tBodies[0].append(...rows.map((row) => row[1]));
  heads.forEach((head) => head.removeAttribute("aria-sort"));
  heads[column].setAttribute("aria-sort", descending ? "descending" : "ascending");
}

function sortByAddress() {
  const sort = /^#sort=(-?)(\d+)$/.exec(location.hash);
  if (sort && heads[sort[2] - 1]) sortBy(sort[2] - 1, sort[1] === "-");
}

heads.forEach((head, column) => {
  head.querySelector("button").addEventListener("click", () => {
    const descending = head.getAttribute("aria-sort") === "ascending";
    location.hash = "sort=" + (descending ? "-" : "") + (column + 1);
  });
});
addEventListener("hashchange", sortByAddress);
sortByAddress();
