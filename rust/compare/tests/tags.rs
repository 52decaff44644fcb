//! The reader of tags: every allowed form in one page, and every mistake with its line.

use compare::tags::{read, Element, Node};

fn element<const N: usize>(name: &str, attributes: [(&str, &str); N], nodes: Vec<Node>) -> Element {
    let attributes = attributes.map(|(name, value)| (name.to_string(), value.to_string())).to_vec();
    Element { name: name.to_string(), attributes, nodes }
}

fn below<const N: usize>(name: &str, attributes: [(&str, &str); N], nodes: Vec<Node>) -> Node {
    Node::Element(element(name, attributes, nodes))
}

fn text(text: &str) -> Node {
    Node::Text(text.to_string())
}

const PAGE: &str = r##"<!DOCTYPE html>

<html lang="en"><head><meta charset="utf-8"/><title>K &amp; M</title><style>.zone > td { margin: 0 }</style></head>
<body>
<h1 id="top">&lt;&gt;&quot;&#39; "7's" &amp;lt; ]] è</h1>
<svg xmlns="http://www.w3.org/2000/svg"
	viewBox="0 0 9 9" aria-labelledby="name top" ><title id="name">K</title><g class="zone held"/><use xlink:href="#later"/></svg>
<p class="zone">see <a href="#top" title="a > b &lt; &quot;c&quot; it's">zone <b>4</b></a><br/><br /></p>
<table><col/><tr><th id="later"></th><td headers="later">-</td></tr></table><hr/><img src="#top"/>
<label for="Input-1" aria-describedby="top">n</label><input id="Input-1"/>
</body></html>
"##;

#[test]
fn a_page_of_all_forms() {
    let svg = vec![
        below("title", [("id", "name")], vec![text("K")]),
        below("g", [("class", "zone held")], vec![]),
        below("use", [("xlink:href", "#later")], vec![]),
    ];
    let svg = below("svg", [("xmlns", "http://www.w3.org/2000/svg"), ("viewBox", "0 0 9 9"), ("aria-labelledby", "name top")], svg);
    let link = vec![text("zone "), below("b", [], vec![text("4")])];
    let link = below("a", [("href", "#top"), ("title", "a > b < \"c\" it's")], link);
    let row = vec![below("th", [("id", "later")], vec![]), below("td", [("headers", "later")], vec![text("-")])];
    let head = vec![
        below("meta", [("charset", "utf-8")], vec![]),
        below("title", [], vec![text("K & M")]),
        below("style", [], vec![text(".zone > td { margin: 0 }")]),
    ];
    let body = vec![
        text("\n"),
        below("h1", [("id", "top")], vec![text("<>\"' \"7's\" &lt; ]] è")]),
        text("\n"),
        svg,
        text("\n"),
        below("p", [("class", "zone")], vec![text("see "), link, below("br", [], vec![]), below("br", [], vec![])]),
        text("\n"),
        below("table", [], vec![below("col", [], vec![]), below("tr", [], row)]),
        below("hr", [], vec![]),
        below("img", [("src", "#top")], vec![]),
        text("\n"),
        below("label", [("for", "Input-1"), ("aria-describedby", "top")], vec![text("n")]),
        below("input", [("id", "Input-1")], vec![]),
        text("\n"),
    ];
    let page = vec![below("head", [], head), text("\n"), below("body", [], body)];
    assert_eq!(read(PAGE), Ok(element("html", [("lang", "en")], page)));
    assert_eq!(read("\n\t <svg/> \n"), Ok(element("svg", [], vec![])));
    assert_eq!(read("<!DOCTYPE html><p></p>"), Ok(element("p", [], vec![])));
}

#[test]
fn what_is_asked_of_a_page() {
    let page = read(PAGE).expect("a page");
    let names = |elements: Vec<&Element>| elements.iter().map(|element| element.name.clone()).collect::<Vec<_>>().join(" ");
    let all = "html head meta title style body h1 svg title g use p a b br br table col tr th td hr img label input";
    assert_eq!(names(page.all()), all);
    assert_eq!(names(page.named("html")), "html");
    assert_eq!(page.named("title").iter().map(|title| title.text()).collect::<Vec<_>>(), ["K & M", "K"]);
    assert_eq!(names(page.of_class("zone")), "g p");
    assert_eq!(names(page.of_class("held")), "g");
    assert_eq!(names(page.of_class("hel")), "");
    let p = page.named("p")[0];
    assert_eq!(names(p.of_class("zone")), "p");
    assert_eq!(p.text(), "see zone 4");
    assert_eq!(p.attribute("class"), Some("zone"));
    assert_eq!(p.attribute("Class"), None);
}

/// Texts with a mistake, and what is said of it.
const BAD: &[(&str, &str)] = &[
    // Tags that don't nest or aren't closed.
    ("", "1: the end where the one element is to start"),
    ("<p>\n<b>\n</p></b>", "3: \"</p>\" where </b> is to come"),
    ("<p>\n</P>", "2: \"</P>\" where </p> is to come"),
    ("<p></p >", "1: \"</p >\" where </p> is to come"),
    ("<p></p", "1: \"</p\" where </p> is to come"),
    ("<p>\n<b>4\n\n", "2: <b> isn't closed"),
    ("<p>\n<b></b>", "1: <p> isn't closed"),
    ("<p\n", "2: the end where a name is to be"),
    ("<p\n<b></b></p>", "2: \"<b>\" where a name is to be"),
    ("<p class=\"", "1: the end in the value of attribute class"),
    // Around the one element.
    ("<p></p>\n<p></p>", "2: \"<p>\" after the one element"),
    ("<p></p></p>", "1: \"</p>\" after the one element"),
    ("<p></p>\n\n4\n", "3: \"4\" after the one element"),
    ("<p></p>&amp;", "1: \"&amp;\" after the one element"),
    ("<p></p>\u{A0}", "1: \"\u{A0}\" after the one element"),
    ("<p></p><!-- 4 -->", "1: \"<!-- 4 -->\" after the one element"),
    ("4\n<p></p>", "1: \"4\" where the one element is to start"),
    ("\u{FEFF}<p></p>", "1: \"\\u{feff}<p>\" where the one element is to start"),
    ("</p>", "1: \"/p>\" where a name is to be"),
    // Attributes.
    ("<p class=a></p>", "1: attribute class has no value in double quotes"),
    ("<p\nclass='a'></p>", "2: attribute class has no value in double quotes"),
    ("<input disabled/>", "1: attribute disabled has no value in double quotes"),
    ("<p class = \"a\"></p>", "1: attribute class has no value in double quotes"),
    ("<p class=\"a\"\nclass=\"b\"></p>", "2: attribute class is there twice"),
    ("<p class=\"a\" Class=\"b\"></p>", "1: attribute Class is there twice"),
    ("<p class=\"a\"title=\"b\"></p>", "1: attribute title has no space before it"),
    ("<p title=\"a\n<b\"></p>", "2: \"<b\">\" in the value of attribute title"),
    ("<p title=\"a\n& b\"></p>", "2: \"& b\">\" starts with none of &amp; &lt; &gt; &quot; &#39;"),
    ("<p title=\"&#34;\"></p>", "1: \"&#34;\">\" starts with none of &amp; &lt; &gt; &quot; &#39;"),
    // Texts.
    ("<p>\na & b</p>", "2: \"& b</p>\" starts with none of &amp; &lt; &gt; &quot; &#39;"),
    ("<p>&nbsp;</p>", "1: \"&nbsp;</p>\" starts with none of &amp; &lt; &gt; &quot; &#39;"),
    ("<p>&amp</p>", "1: \"&amp</p>\" starts with none of &amp; &lt; &gt; &quot; &#39;"),
    ("<p>&AMP;</p>", "1: \"&AMP;</p>\" starts with none of &amp; &lt; &gt; &quot; &#39;"),
    ("<p>&#x27;</p>", "1: \"&#x27;</p>\" starts with none of &amp; &lt; &gt; &quot; &#39;"),
    ("<style>a & b</style>", "1: \"& b</style>\" starts with none of &amp; &lt; &gt; &quot; &#39;"),
    ("<p>4\n> 3</p>", "2: > in a text: write &gt;"),
    ("<style>a<b>></b></style>", "1: > in a text: write &gt;"),
    ("<p>4 < 5</p>", "1: \" 5</p>\" where a name is to be"),
    ("<p>a]]></p>", "1: > in a text: write &gt;"),
    ("<style>\na]]></style>", "2: ]]> is refused"),
    ("<p title=\"]]>\"></p>", "1: ]]> is refused"),
    // Characters.
    ("<p>\n\u{0}</p>", "2: character U+0000 is refused"),
    ("<p>\u{B}</p>", "1: character U+000B is refused"),
    ("<p>\r\n</p>", "1: character U+000D is refused"),
    ("<p>\u{1B}</p>", "1: character U+001B is refused"),
    ("<p>\u{7F}</p>", "1: character U+007F is refused"),
    ("<p title=\"\u{85}\"></p>", "1: character U+0085 is refused"),
    ("<p>\n</p>\n\u{FFFE}", "3: character U+FFFE is refused"),
    ("<p>\u{FFFF}</p>", "1: character U+FFFF is refused"),
    // What isn't an element.
    ("<p>\n<!-- 4 --></p>", "2: \"<!-- 4 -->\" is refused, as all comments, CDATA, instructions and other doctypes"),
    ("<p><![CDATA[4]]></p>", "1: \"<![CDATA[4]]>\" is refused, as all comments, CDATA, instructions and other doctypes"),
    ("<?xml version=\"1.0\"?><p></p>", "1: \"<?xml version=\"1.0\"?>\" is refused, as all comments, CDATA, instructions and other doctypes"),
    ("<!doctype html><p></p>", "1: \"<!doctype html>\" is refused, as all comments, CDATA, instructions and other doctypes"),
    ("\n<!DOCTYPE html><p></p>", "2: \"<!DOCTYPE html>\" is refused, as all comments, CDATA, instructions and other doctypes"),
    ("<!DOCTYPE html>\n<!DOCTYPE html><p></p>", "2: \"<!DOCTYPE html>\" is refused, as all comments, CDATA, instructions and other doctypes"),
    // Names.
    ("<4></4>", "1: \"4>\" where a name is to be"),
    ("< p></p>", "1: \" p>\" where a name is to be"),
    ("<p_a></p_a>", "1: \"_a>\" where a name is to be"),
    ("<pè></pè>", "1: \"è>\" where a name is to be"),
    ("<p -a=\"4\"></p>", "1: \"-a=\"4\">\" where a name is to be"),
    ("<p a_b=\"4\"></p>", "1: attribute a has no value in double quotes"),
    ("<br/ >", "1: \"/ >\" where a name is to be"),
    // Void elements, and the others.
    ("<p>4<br>\n</p>", "1: <br> never has an end tag: write <br/>"),
    ("<p>\n<BR></BR></p>", "2: <BR> never has an end tag: write <BR/>"),
    ("<td/>", "1: a browser takes <td/> for an open tag: write <td></td>"),
    ("<p><svg><g/></svg>\n<g/></p>", "2: a browser takes <g/> for an open tag: write <g></g>"),
    // Ids.
    ("<p id=\"a\">\n<b id=\"a\"></b></p>", "2: id \"a\" is there twice"),
    ("<p id=\"a\">\n<a href=\"#b\"></a></p>", "2: no element has the id \"b\""),
    ("<a href=\"#\"></a>", "1: no element has the id \"\""),
    ("<p id=\"a\"><svg><use xlink:href=\"#b\"/></svg></p>", "1: no element has the id \"b\""),
    ("<label\nfor=\"a\"></label>", "2: no element has the id \"a\""),
    ("<p id=\"a\" aria-labelledby=\"a b\"></p>", "1: no element has the id \"b\""),
    ("<p id=\"a\" aria-describedby=\"b a\"></p>", "1: no element has the id \"b\""),
    ("<td id=\"a\" headers=\"A\"></td>", "1: no element has the id \"A\""),
    ("<p aria-labelledby=\"\"></p>", "1: no element has the id \"\""),
    // Nothing from elsewhere.
    ("<p>\n<script></script></p>", "2: <script> is refused"),
    ("<iframe></iframe>", "1: <iframe> is refused"),
    ("<Object></Object>", "1: <Object> is refused"),
    ("<embed/>", "1: <embed> is refused"),
    ("<link/>", "1: <link> is refused"),
    ("<base/>", "1: <base> is refused"),
    ("<form></form>", "1: <form> is refused"),
    ("<svg><foreignObject/></svg>", "1: <foreignObject> is refused"),
    ("<p\nonclick=\"\"></p>", "2: attribute onclick is refused"),
    ("<a href=\"page\"></a>", "1: href \"page\" doesn't start with #"),
    ("<img SRC=\"//a/b\"/>", "1: SRC \"//a/b\" doesn't start with #"),
    ("<style>\np { a: b }\np { fill: URL(#a) }</style>", "3: url( is refused"),
    ("<p>&amp;\n@import</p>", "2: @import is refused"),
    ("<meta http-equiv=\"refresh\"/>", "1: http is refused"),
    ("<p> xmlns=\"http://www.w3.org/2000/svg\"</p>", "1: http is refused"),
    ("<svg xmlns=\"http://www.w3.org/2000/svg4\"/>", "1: http is refused"),
];

#[test]
fn mistakes_have_their_lines() {
    for &(text, mistake) in BAD {
        assert_eq!(read(text), Err(mistake.to_string()), "{text:?}");
    }
}
