//! How everything looks. The colours are those of Okabe and Ito, which colour-blind readers tell apart, and red is kept for what is broken.
//! The words stand in whatever plain font the reader has: nothing is fetched.

pub const STYLE: &str = r##"<style>
text { font-family: "Helvetica Neue", Helvetica, Arial, "DejaVu Sans", sans-serif; font-size: 11px; fill: #1f2933; }
.paper { fill: #ffffff; }
.title { font-size: 20px; font-weight: bold; }
.subtitle { font-size: 12px; fill: #3e4c59; }
.table { font-size: 11px; fill: #6b7785; }
.refusal { fill: #fdeeee; }
.refusal-edge { fill: #c8102e; }
.refused { font-size: 13px; font-weight: bold; fill: #c8102e; }
.sentence { font-size: 13px; }
.lane { fill: #f4f6f8; }
.slim { fill: #f9fafb; }
.name { text-anchor: end; font-size: 12px; }
.small { font-size: 10px; fill: #6b7785; }
.faint { font-size: 10px; fill: #9aa5b1; }
.grid { stroke: #dfe4e9; stroke-width: 1; }
.tick { stroke: #7b8794; stroke-width: 1; }
.rule { stroke: #cbd2d9; stroke-width: 1; }
.cycle { text-anchor: middle; fill: #3e4c59; }
.torn { fill: #ffffff; }
.tear { fill: none; stroke: #9aa5b1; stroke-width: 1; }
.aside { font-size: 10px; text-anchor: middle; fill: #6b7785; }
.left { text-anchor: start; }
.end { text-anchor: end; }
.open { fill: #cfe2f3; stroke: #8fb3d3; stroke-width: 0.8; }
.precharging { fill: url(#skv-hatch); stroke: #8fb3d3; stroke-width: 0.8; }
.dashed { fill-opacity: 0.25; stroke-dasharray: 3 2; }
.refresh { fill: #ead3e5; stroke: #b784ad; stroke-width: 0.8; }
.refreshing { fill: url(#skv-dots); stroke: #c9a3c1; stroke-width: 0.8; }
.act { fill: #323f4b; }
.read { fill: #0072b2; }
.write { fill: #e69f00; }
.ref { fill: #8a3f7d; }
.stray { fill: #ffffff; stroke: #323f4b; stroke-width: 1.5; }
.broken { fill: #c8102e; }
.ghost { fill: #ffffff; fill-opacity: 0.85; stroke: #c8102e; stroke-width: 1.2; stroke-dasharray: 2.5 2; }
.mark polygon, .mark circle, .mark rect { paint-order: stroke; }
.one { font-size: 10.5px; font-weight: bold; text-anchor: middle; }
.two { font-size: 8.5px; font-weight: bold; text-anchor: middle; }
.on-act, .on-read, .on-ref, .on-broken { fill: #ffffff; }
.on-write, .on-stray { fill: #1f2933; }
.on-ghost { fill: #c8102e; }
.when { font-size: 8.5px; text-anchor: middle; fill: #52606d; }
.when-broken { font-weight: bold; fill: #c8102e; }
.when-ghost { fill: #c8102e; }
.halo { fill: #ffffff; stroke: #c8102e; stroke-width: 1.6; }
.unjudged { opacity: 0.4; }
.burst-read { fill: #0072b2; stroke: #ffffff; stroke-width: 0.8; }
.burst-read-odd { fill: #56b4e9; stroke: #ffffff; stroke-width: 0.8; }
.burst-write { fill: #e69f00; stroke: #ffffff; stroke-width: 0.8; }
.burst-write-odd { fill: #f4cf74; stroke: #ffffff; stroke-width: 0.8; }
.on-burst { font-size: 10px; text-anchor: middle; }
.on-read-odd, .on-write-odd { fill: #1f2933; }
.shared { fill: url(#skv-red-hatch); stroke: #c8102e; stroke-width: 1.2; }
.window { fill: #9fdcc8; stroke: #009e73; stroke-width: 0.8; }
.window-act { fill: #00563f; }
.red-window { fill: #f6c4c9; stroke: #c8102e; stroke-dasharray: 3 2; }
.red-act { fill: #c8102e; }
.red-line { stroke: #c8102e; stroke-width: 1.6; }
.promise { fill: #e4e7eb; stroke: #b8c2cc; stroke-width: 0.8; }
.arrival { fill: #1f2933; }
.bound { stroke: #1f2933; stroke-width: 1.8; }
.finish-mark { fill: #ffffff; stroke: #1f2933; stroke-width: 1.4; }
.in-bar { font-size: 10px; }
.number { font-size: 10px; fill: #3e4c59; }
.legend { fill: #3e4c59; }
.red-words { fill: #c8102e; }
.left-open { fill: #fbdcdf; stroke: #c8102e; stroke-width: 1.4; stroke-dasharray: 4 3; }
.red-measure { stroke: #c8102e; stroke-width: 1.2; }
.too-early { fill: #c8102e; fill-opacity: 0.1; }
.middle { text-anchor: middle; }
.red-ring { fill: none; stroke: #c8102e; stroke-width: 1.6; }
.red-arrow { fill: none; stroke: #c8102e; stroke-width: 1.4; }
.red-head { fill: #c8102e; }
</style>
<defs>
<pattern id="skv-hatch" width="5" height="5" patternUnits="userSpaceOnUse" patternTransform="rotate(45)">
<rect width="5" height="5" fill="#ffffff"/><rect width="1.6" height="5" fill="#8fb3d3"/></pattern>
<pattern id="skv-red-hatch" width="5" height="5" patternUnits="userSpaceOnUse" patternTransform="rotate(-45)">
<rect width="2" height="5" fill="#c8102e"/></pattern>
<pattern id="skv-dots" width="7" height="7" patternUnits="userSpaceOnUse">
<rect width="7" height="7" fill="#f8f0f6"/><circle cx="3.5" cy="3.5" r="0.9" fill="#cfaac8"/></pattern>
</defs>"##;
