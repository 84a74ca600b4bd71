"use strict";
/* What came of a run, in a sentence or two, and its main events in words, by the facts that tools/caldrouz/page.py lists. Not
   proved. */
const Story = (() => {
const MOST_EVENTS = 10, MOST_NAMED = 4;
const short = lane => lane.kind === "member" ? lane.name : `the device … ${lane.name.slice(-10)}`;
const joined = words => words.length < 2 ? words.join("") : `${words.slice(0, -1).join(", ")} and ${words[words.length - 1]}`;
const sentence = words => words[0].toUpperCase() + words.slice(1) + ".";

/* Each node ID that a device was told, once: [row, lane, ID]. */
function given(facts) {
  const seen = new Set();
  return facts.marks.filter(([, at, what, id]) => {
    const is_new = facts.lanes[at].kind !== "member" && (what === "hold" || what === "told") && !seen.has(`${at} ${id}`);
    if (is_new) seen.add(`${at} ${id}`);
    return is_new;
  }).map(([row, at, , id]) => [row, facts.lanes[at], id]).sort((a, b) => a[0] - b[0]);
}

/* Each time that a member began to lead: [row, lane, term]. */
function led(facts) {
  const found = facts.lanes.flatMap(lane => lane.spans.filter(span => span[1] === "L").map(([row, , term]) => [row, lane, term]));
  return found.sort((a, b) => a[0] - b[0]);
}

/* Who has which node ID, and who led. */
function outcome(facts) {
  const ids = given(facts), leaders = led(facts), told = [];
  if (!ids.length) told.push("no device was told a node ID");
  else if (ids.length <= MOST_NAMED) told.push(joined(ids.map(([, lane, id]) => `${short(lane)} was told node ID ${id}`)));
  else told.push(`${ids.length} devices were told node IDs: ${joined(ids.map(one => one[2]))}`);
  if (!leaders.length) told.push("nobody led");
  else if (leaders.length <= MOST_NAMED) told.push(joined(leaders.map(([, lane, term]) => `${lane.name} led in term ${term}`)));
  else {
    const [, lane, term] = leaders[leaders.length - 1];
    told.push(`${leaders.length} elections were won, and ${lane.name} led last, in term ${term}`);
  }
  return told.map(sentence).join(" ");
}

/* The ten main events as [row, words], in their order, and how many others there are. What was asked for comes first: the cut,
   leaders, node IDs; then what stopped or failed; then who came. */
function events(facts) {
  const {lanes, marks} = facts, opened = new Set(), all = [];
  const add = (row, weight, words) => all.push({row, weight, words});
  if (facts.end !== "whole" && facts.last === facts.total) add(facts.last, 0, facts.end_words);
  for (const [row, lane, term] of led(facts)) add(row, 1, `${lane.name} leads, in term ${term}`);
  for (const [row, lane, id] of given(facts)) add(row, 1, `${short(lane)} is told node ID ${id}`);
  for (const [row, at, what] of marks) {
    const lane = lanes[at], is_member = lane.kind === "member";
    if (what === "stop") add(row, is_member ? 2 : 4, is_member ? `${lane.name} stops` : `${short(lane)} goes`);
    if (what === "fault") add(row, 2, `the disk of ${lane.name} fails`);
    if (what === "open") {
      add(row, is_member ? 3 : 4, `${short(lane)} ${is_member ? "starts" : "comes"}${opened.has(at) ? " again" : ""}`);
      opened.add(at);
    }
  }
  const main = [...all].sort((a, b) => a.weight - b.weight || a.row - b.row).slice(0, MOST_EVENTS);
  main.sort((a, b) => a.row - b.row || b.weight - a.weight);
  return {main: main.map(({row, words}) => [row, words]), left: all.length - main.length};
}

return {outcome, events};
})();

if (typeof module !== "undefined") module.exports = Story;
