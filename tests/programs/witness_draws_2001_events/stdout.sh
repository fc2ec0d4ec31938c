echo '<svg xmlns="http://www.w3.org/2000/svg" viewBox="0 0 652 248" width="782" height="297">'
echo '<title>A schedule that shows 2001 and 2002</title>'
echo '<desc>Its 2001 events are those that racebench witness prints</desc>'
cat <<'END'
<style>
text{font:10px monospace;fill:#1b1b1b}
.paper{fill:#ffffff}
.name{font-weight:bold}
.note{fill:#4c5a66}
.box{fill:#eef3f8;stroke:#5a7184}
.edge{fill:#c9d4de}
.held{fill:#0072b2}
.arrow{fill:none;stroke:#5a7184;stroke-width:1.5}
.tip{fill:#5a7184}
.race{fill:#fdf0e6;stroke:#d55e00;stroke-width:2}
.access{fill:#b04a00;font-weight:bold}
@media (prefers-color-scheme:dark){
text{fill:#e6e6e6}
.paper{fill:#14181c}
.note{fill:#a9b7c4}
.box{fill:#232b33;stroke:#8fa3b3}
.edge{fill:#3b4752}
.held{fill:#56b4e9}
.arrow{stroke:#8fa3b3}
.tip{fill:#8fa3b3}
.race{fill:#33241a;stroke:#ff9e5e}
.access{fill:#ffb27d}
}
</style>
<defs><marker id="tip" viewBox="0 0 8 8" refX="8" refY="4" markerWidth="8" markerHeight="8" markerUnits="userSpaceOnUse" orient="auto"><path class="tip" d="M0 0L8 4L0 8Z"/></marker></defs>
<rect class="paper" width="100%" height="100%"/>
<text class="name" x="12" y="20">2001 and 2002: after 2001 events in 1 run both are next</text>
<text class="name" x="12" y="48">A</text>
<text class="name" x="332" y="48">B</text>
<rect class="box" x="12" y="62" width="296" height="48"/>
<rect class="edge" x="12" y="62" width="6" height="48"/>
<text class="note" x="25" y="76">run 1, 2001 events of A</text>
<text class="event" x="25" y="89">0  w(own) 1</text>
<text class="event" x="25" y="102">2000  w(own) 1</text>
<text class="name" x="12" y="142">then both are next:</text>
<rect class="race" x="12" y="154" width="296" height="35"/>
<text class="name" x="25" y="168">A</text>
<text class="access" x="25" y="181">2001  w(x) 1</text>
<rect class="race" x="12" y="201" width="296" height="35"/>
<text class="name" x="25" y="215">B</text>
<text class="access" x="25" y="228">2002  w(x) 2</text>
</svg>
END
