//! `backbone check --report`: one page that loads nothing, with a sortable table and a picture of each fault.

mod common;

use common::{run, shell, stored_a, Folder, SHEET_A};

/// Sheet A as five engines laid it out; the first file's name asks to be escaped.
fn page(folder: &Folder) -> String {
    let files = [
        folder.file("a <b>&\"'.txt", stored_a(3, 18, [0, 1, 2])),
        folder.file("b.txt", stored_a(2, 19, [0, 0, 2])),
        folder.file("c.txt", stored_a(2, 16, [0, 0, 1]).replace("site 2 4", "site 2 4 \"<script>alert(1)</script>\"")),
        folder.file("d.txt", format!("{SHEET_A}refused 10\n")),
        folder.file("e.txt", SHEET_A),
    ];
    let report = folder.path("new/report");
    let arguments = ["check", "--report", &report].into_iter().chain(files.iter().map(|file| &file[..]));
    let run = run(arguments, b"");
    assert_eq!((run.code, &run.err[..]), (Some(1), ""));
    report + "/index.html"
}

#[test]
fn the_page_has_every_sheet_and_every_fault() {
    let folder = Folder::new("page");
    let html = std::fs::read_to_string(page(&folder)).unwrap();
    let body = html.split("<tbody>").nth(1).unwrap().split("</tbody>").next().unwrap();
    assert_eq!(body.matches("<tr").count(), 5);
    assert_eq!(html.matches("<svg ").count(), 3, "not best, unlawful, a false claim");
    assert_eq!(html.matches("<section id=").count(), 3);
    assert!(html.contains("a &lt;b&gt;&amp;&quot;&#39;.txt: not best"), "{html}");
    assert!(html.contains("ties that differ"), "{html}");
    assert!(html.contains("1 label more, 1 unit (0.125 points, 0.044 mm) shorter"), "{html}");
}

/// A two-sided layout has no best one beside it: what is unlawful is drawn alone, what is lawful not at all.
#[test]
fn two_sided_layouts_are_shown_alone() {
    let folder = Folder::new("two-sided");
    let two_sided = |text: String| text.replace("one-sided", "two-sided");
    let lawful = folder.file("lawful.txt", two_sided(stored_a(2, 25, [0, 0, 2])));
    let unlawful = folder.file("unlawful.txt", two_sided(stored_a(2, 25, [0, 0, 1])));
    let report = folder.path("report");
    assert_eq!(run(["check", "--report", &report, &lawful, &unlawful], b"").code, Some(1));
    let html = std::fs::read_to_string(report + "/index.html").unwrap();
    assert!(html.contains("<td>lawful</td>") && html.contains("so that it is best is not said"), "{html}");
    assert_eq!(html.matches("<svg ").count(), 1, "{html}");
    assert!(html.contains("engine: labels 2 length 25") && !html.contains("best: no layout"), "{html}");
}

#[test]
fn the_page_loads_nothing() {
    let folder = Folder::new("alone");
    let html = std::fs::read_to_string(page(&folder)).unwrap();
    assert_eq!(html.matches("<script").count(), 1, "the one of the table");
    for from_elsewhere in ["src=", "@import", "url(", "<link", "<iframe", "<img", "<image"] {
        assert!(!html.contains(from_elsewhere), "{from_elsewhere}");
    }
    let addresses: Vec<&str> =
        html.split("http").skip(1).filter(|rest| rest.starts_with("s:") || rest.starts_with(':')).collect();
    assert!(addresses.iter().all(|address| address.starts_with("://www.w3.org/2000/svg")), "{addresses:?}");
    let links = html.split("href=\"").skip(1);
    assert!(links.clone().count() == 3 && links.clone().all(|link| link.starts_with("#sheet")));
}

#[test]
fn a_browser_shows_the_page_and_sorts_it() {
    let names = ["chromium", "chromium-browser", "google-chrome"];
    let found = names.iter().find(|name| shell(&format!("command -v {name}"), b"").code == Some(0));
    let Some(browser) = found else {
        println!("skipped: Chromium is not installed");
        return;
    };
    let folder = Folder::new("browser");
    let page = page(&folder);
    // The files' numbers in the order of the rows, after the browser has run the page's script.
    let order = |sort: &str| -> Option<Vec<String>> {
        let line = format!(
            "timeout 60 {browser} --headless --no-sandbox --disable-gpu --user-data-dir={} --dump-dom 'file://{page}{sort}' 2>/dev/null",
            folder.path("profile")
        );
        let shown = shell(&line, b"").text();
        let table = shown.split("<table id=\"sheets\">").nth(1)?;
        let body = table.split("<tbody>").nth(1)?.split("</tbody>").next()?.to_string();
        let number = |row: &str| Some(row.split("<td>").nth(1)?.split("</td>").next()?.to_string());
        body.split("<tr").skip(1).map(number).collect()
    };
    // By the labels that the engine has: none, none, 2, 2, 3.
    let Some(by_labels) = order("#sort=4") else {
        println!("skipped: {browser} does not run here");
        return;
    };
    assert_eq!(by_labels, ["4", "5", "2", "3", "1"]);
    // By the finding's name, backwards: unlawful, refused 11, not best, false no layout, best.
    assert_eq!(order("#sort=-3").unwrap(), ["3", "5", "1", "4", "2"]);
}
