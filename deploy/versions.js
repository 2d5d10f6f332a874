// A menu of the versions of a documentation: those that the reader may see and that are not hidden, as /_/versions names them.
//
// It goes into each version, and pages load it by <script src="/en/latest/versions.js" defer></script>. It stands in the element
// <nav class="docs-versions">..</nav> of a page, in place of what is there, which is what readers without scripts have; a page
// that has no such element gets it in its lower right corner. It leads to the same page of the version that is chosen, or to the
// start of that version where there is no such page. docs/recipes.md has what Sphinx, MkDocs and Material are told.
//
// Keys: Enter or Space opens it, arrows, Home and End go through it, Enter follows, Escape closes it.
// Light or dark it is by what stands behind it, and its styles meet no style of the page.
(function () {
  "use strict";

  const STYLES = `
    :host { all: initial; display: inline-block; position: relative; font: 14px/1.4 system-ui, sans-serif; color-scheme: light; }
    :host([data-corner]) { position: fixed; right: 12px; bottom: 12px; z-index: 1000; }
    :host([data-dark]) { color-scheme: dark; }
    details { --ink: #1c1e21; --paper: #fff; --line: #8a8f98; --here: #e4ecfa; color: var(--ink); }
    :host([data-dark]) details { --ink: #eceef1; --paper: #24272c; --line: #7c828c; --here: #37445c; }
    summary, div { background: var(--paper); border: 1px solid var(--line); border-radius: 6px; }
    summary { padding: 4px 10px; cursor: pointer; list-style: none; white-space: nowrap; }
    summary::-webkit-details-marker { display: none; }
    summary::after { content: " \\25BE"; }
    div { position: absolute; left: 0; top: calc(100% + 4px); z-index: 1; min-width: 100%; box-sizing: border-box; padding: 4px 0;
      max-height: min(60vh, 24em); overflow: auto; box-shadow: 0 4px 14px #0004; }
    :host([data-corner]) div { left: auto; right: 0; top: auto; bottom: calc(100% + 4px); }
    ul { margin: 0; padding: 0; list-style: none; }
    ul + ul { border-top: 1px solid var(--line); margin-top: 4px; padding-top: 4px; }
    a { display: block; padding: 3px 12px; color: inherit; text-decoration: none; white-space: nowrap; }
    a:hover { text-decoration: underline; }
    a[aria-current] { background: var(--here); font-weight: 600; }
    summary:focus-visible, a:focus-visible { outline: 2px solid #3b82f6; outline-offset: -2px; }
    @media print { :host { display: none; } }
  `;

  // What an address is made of: its language, its version, and the page in it.
  function place() {
    const [, language, version, ...page] = location.pathname.split("/");
    return { language, version, page: page.join("/") };
  }

  // Branches by name, and then tags, the newest first.
  function inOrder(versions) {
    const of = (kind) => versions.filter((it) => it.kind === kind).map((it) => it.slug);
    // (a name comes behind those that go on where it ends, so 1.0 behind 1.0-rc.1)
    const byNumber = (one, other) => `${one}~`.localeCompare(`${other}~`, "en", { numeric: true });
    return [...of("branch").sort(byNumber), ...of("tag").sort(byNumber).reverse()];
  }

  function listOf(names, mark, addressOf) {
    const list = document.createElement("ul");
    for (const name of names) {
      const link = document.createElement("a"), item = document.createElement("li");
      link.textContent = name;
      link.dataset.top = addressOf(name);
      if (name === mark) link.setAttribute("aria-current", "true");
      item.append(link);
      list.append(item);
    }
    return list;
  }

  // Whether what stands behind an element is dark: the first colour that is not transparent, from it outwards.
  function isDark(element) {
    for (let it = element; it; it = it.parentElement) {
      const [red, green, blue, opaque] = (getComputedStyle(it).backgroundColor.match(/[\d.]+/g) || []).map(Number);
      if (opaque !== 0 && blue !== undefined) return 0.3 * red + 0.6 * green + 0.1 * blue < 128;
    }
    const scheme = getComputedStyle(document.documentElement).colorScheme;
    return scheme.includes("dark") && (!scheme.includes("light") || matchMedia("(prefers-color-scheme: dark)").matches);
  }

  // The same page where the other version has it, else its start.
  async function follow(link) {
    let found = true;
    try {
      found = (await fetch(link.href, { method: "HEAD" })).ok;
    } catch (error) {
      // (nobody answers now, and the page says so itself)
    }
    location.assign(found ? link.href : link.dataset.top);
  }

  function menuOf(told) {
    const { language, version } = place(), menu = document.createElement("details"), list = document.createElement("div");
    const summary = document.createElement("summary");
    summary.textContent = version;
    summary.setAttribute("aria-label", `Version ${version}: choose another`);
    list.append(listOf([...told.aliases, ...inOrder(told.versions)], version, (name) => `/${language}/${name}/`));
    if (told.languages.length > 1) list.append(listOf(told.languages, language, (name) => `/${name}/${version}/`));
    menu.append(summary, list);
    return menu;
  }

  function act(menu, host) {
    const summary = menu.querySelector("summary"), links = [...menu.querySelectorAll("a")];
    const close = () => { menu.open = false; };
    // (a theme may go to another page without loading it anew)
    const aim = () => {
      for (const link of links) link.href = link.dataset.top + place().page + location.hash;
    };
    const shade = () => host.toggleAttribute("data-dark", isDark(host.parentElement));
    aim();
    shade();
    menu.addEventListener("toggle", () => { aim(); shade(); });
    new MutationObserver(shade).observe(document.documentElement, { attributes: true });
    new MutationObserver(shade).observe(document.body, { attributes: true });
    matchMedia("(prefers-color-scheme: dark)").addEventListener("change", () => setTimeout(shade));
    document.addEventListener("click", (event) => { if (!event.composedPath().includes(host)) close(); });
    menu.addEventListener("click", (event) => {
      const link = event.target.closest("a");
      if (!link || event.ctrlKey || event.metaKey || event.shiftKey || event.altKey) return;
      event.preventDefault();
      follow(link);
    });
    menu.addEventListener("keydown", (event) => {
      const at = links.indexOf(event.target), last = links.length - 1;
      const next = { ArrowDown: Math.min(at + 1, last), ArrowUp: Math.max(at - 1, 0), Home: 0, End: last }[event.key];
      // (keys of the menu are none of the theme's)
      event.stopPropagation();
      if (event.key === "Escape") {
        close();
        summary.focus();
      } else if (next !== undefined) {
        event.preventDefault();
        menu.open = true;
        links[next].focus();
      }
    });
  }

  async function start() {
    const reply = await fetch("/_/versions"), told = reply.ok ? await reply.json() : null, { language, version } = place();
    if (!told || !version || !told.languages.includes(language)) return;
    const menu = menuOf(told), host = document.createElement("span"), root = host.attachShadow({ mode: "open" });
    const sheet = new CSSStyleSheet(), given = document.querySelector(".docs-versions");
    sheet.replaceSync(STYLES);
    root.adoptedStyleSheets = [sheet];
    host.id = "docs-versions-menu";
    host.setAttribute("role", "navigation");
    host.setAttribute("aria-label", "Versions");
    host.toggleAttribute("data-corner", !given);
    root.append(menu);
    if (given) given.replaceChildren(host);
    else document.body.append(host);
    act(menu, host);
  }

  if (document.readyState === "loading") document.addEventListener("DOMContentLoaded", start);
  else start();
})();
