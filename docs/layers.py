#!/usr/bin/env python3
"""Draws docs/layers.svg: the crates in groups, and an arrow from each group to those that it stands on.

The arrows are read off crates.txt; one that follows from two others isn't drawn. Run it when a crate comes or goes.
It ends with 1 if crates.txt has a library `dns_..` that isn't drawn, or the other way round, or an arrow that leads up. With
--look nothing is drawn, and the status is 1 too if the picture isn't that of the crates.
"""
import os
import re
import sys
from xml.sax.saxutils import escape

HERE = os.path.dirname(os.path.realpath(__file__))

# Each group: its title, its row from the top, its first column and how many it has, its color, and its crates.
GROUPS = [
    ("Programs", 0, 1, 3, "#f6d6c4", "nutscythe zoned forwardd"),
    ("A server that runs", 1, 1, 2, "#f6d6c4", "dns_host_status dns_server dns_listener dns_zone_copies dns_notifier dns_control dns_metrics dns_proxy_status"),
    ("For callers from C", 1, 3, 1, "#f6d6c4", "dns_embed dns_reply_builder nutscythe_c"),
    ("Servers over sockets", 2, 0, 1, "#f6d6c4", "dns_transport dns_query_link dns_limited_sock dns_socket_addr"),
    ("Scripts, run, floods", 2, 2, 2, "#f6d6c4", "dns_trace dns_script dns_flood dns_run"),
    ("Signed zones", 3, 3, 1, "#f8e7b9", "dns_denial dns_nsec_data dns_nsec3_data dns_signed_zone dns_signed_reply dns_hashed_zone dns_hashed_reply"),
    ("Loops over links and sockets", 3, 0, 1, "#f6d6c4", "dns_recorder dns_stream_driver dns_dgram_driver dns_accepts dns_host dns_account dns_workers"),
    ("Several zones, transfers", 2, 1, 1, "#f8e7b9", "dns_transfer dns_incoming dns_authority dns_secondary dns_secondary_service dns_generation dns_sent_transfer dns_key_access"),
    ("A forwarding proxy", 3, 2, 1, "#f8e7b9", "dns_decide dns_lookup dns_proxy dns_fronts dns_upstreams dns_outstanding dns_proxy_config"),
    ("Links, sockets, clocks", 4, 0, 1, "#f6d6c4", "dns_io dns_memory dns_outside dns_witness dns_query_sock"),
    ("What each client is sent", 4, 1, 1, "#f8e7b9", "dns_framing dns_session dns_session_map dns_model dns_core"),
    ("Zones, routers, caches", 4, 2, 1, "#f8e7b9", "dns_routes dns_route dns_zone dns_zone_tree dns_name_server dns_forward dns_cache"),
    ("Slots and configurations", 5, 1, 1, "#f8e7b9", "dns_admission dns_book_words dns_book dns_config"),
    ("The four layers", 5, 2, 1, "#d7e8c8", "dns_layers dns_middleware dns_rewriting dns_own_opt dns_udp_size dns_reply_counts dns_reply_options dns_transfer_notes dns_signing"),
    ("Requests, services, events", 6, 1, 2, "#d7e8c8", "dns_replies dns_events dns_service dns_stream"),
    ("EDNS options", 7, 1, 2, "#c9e2e6", "dns_lists dns_algs dns_kinds dns_cookie dns_option_list dns_options dns_opt dns_networks dns_rate_limit"),
    ("Zone files", 7, 3, 1, "#c9e2e6", "dns_entries dns_word_values dns_presentation dns_zone_file dns_record_text dns_message_text dns_zone_include"),
    ("Messages", 8, 1, 3, "#d5d3ea", "dns_message dns_base dns_hmac dns_tsig dns_peer_keys"),
    ("Names and numbers", 9, 0, 4, "#d5d3ea", "dns_name dns_order"),
]
COLUMN, GAP, DOWN, EDGE = 280, 16, 30, 12


def stands_on():
    """Of each crate of crates.txt those that it names."""
    with open(os.path.join(HERE, "..", "crates.txt"), encoding="utf-8") as it:
        return {crate: re.findall(r"\w+", on) for crate, on in re.findall(r"^(\w+)[^\n#:]*:(.*)$", it.read(), re.M)}


def arrows(crates):
    """The pairs of groups of which the first stands on the second, except for those that follow from others."""
    home = {crate: group for group, it in enumerate(GROUPS) for crate in it[5].split()}
    pairs = {(home[a], home[b]) for a in crates for b in crates[a] if a in home and b in home and home[a] != home[b]}
    below = {group: {b for a, b in pairs if a == group} for group in range(len(GROUPS))}

    def reach(group):
        return below[group] | {far for near in below[group] for far in reach(near)}

    return sorted((a, b) for a, b in pairs if not any(b in reach(near) for near in below[a] - {b}))


def lines_of(crates, columns):
    """The names of a group's crates, without their prefix, in lines that fit a box of that many columns."""
    lines, most = [""], int((columns * (COLUMN + GAP) - GAP) / 6.7)
    for crate in crates.split():
        word = crate.removeprefix("dns_")
        if lines[-1] and len(lines[-1]) + len(word) + 2 > most:
            lines.append("")
        lines[-1] += f", {word}" if lines[-1] else word
    return lines


def rows():
    """The top and the height of each row of boxes: as high as the one with the most lines."""
    found, top = [], EDGE
    for row in range(1 + max(it[1] for it in GROUPS)):
        high = 32 + 15 * max(len(lines_of(it[5], it[3])) for it in GROUPS if it[1] == row)
        found.append((top, high))
        top += high + DOWN
    return found


def place(group):
    """Left, top, width and height of a group's box."""
    _, row, column, wide, _, _ = GROUPS[group]
    return EDGE + column * (COLUMN + GAP), rows()[row][0], wide * (COLUMN + GAP) - GAP, rows()[row][1]


def ends(upper, lower):
    """Where an arrow begins and ends: straight down where the boxes stand above each other, else between their middles."""
    (x, y, wide, high), (to_x, to_y, to_wide, _) = place(upper), place(lower)
    left, right = max(x, to_x), min(x + wide, to_x + to_wide)
    if left < right:
        return (left + right) / 2, y + high, (left + right) / 2, to_y
    here = min(max(to_x + to_wide / 2, x + 30), x + wide - 30)
    there = min(max(x + wide / 2, to_x + 30), to_x + to_wide - 30)
    return here, y + high, there, to_y


def drawn(crates):
    """The picture."""
    wide = 4 * COLUMN + 3 * GAP + 2 * EDGE
    down = sum(rows()[-1]) + EDGE
    parts = [
        f'<svg xmlns="http://www.w3.org/2000/svg" viewBox="0 0 {wide} {down}" font-family="sans-serif" role="img">',
        "<title>The crates of Nutscythe in groups, each with arrows to those that it stands on</title>",
        '<defs><marker id="tip" markerWidth="9" markerHeight="8" refX="8" refY="4" orient="auto">'
        '<path d="M0,0 L9,4 L0,8 z" fill="#555555"/></marker></defs>',
        f'<rect width="{wide}" height="{down}" fill="#ffffff"/>',
    ]
    for upper, lower in arrows(crates):
        x, y, to_x, to_y = ends(upper, lower)
        parts.append(f'<line x1="{x:.0f}" y1="{y}" x2="{to_x:.0f}" y2="{to_y}" stroke="#555555" marker-end="url(#tip)"/>')
    for group, (title, _, _, columns, color, names) in enumerate(GROUPS):
        left, top, width, high = place(group)
        middle = left + width / 2
        parts.append(f'<rect x="{left}" y="{top}" width="{width}" height="{high}" rx="5" fill="{color}" stroke="#555555"/>')
        parts.append(f'<text x="{middle:.0f}" y="{top + 19}" font-size="14" font-weight="bold" text-anchor="middle" fill="#111111">{escape(title)}</text>')
        for number, line in enumerate(lines_of(names, columns)):
            parts.append(f'<text x="{middle:.0f}" y="{top + 37 + 15 * number}" font-size="12" text-anchor="middle" fill="#333333">{escape(line)}</text>')
    return "\n".join([*parts, "</svg>", ""])


def main():
    crates = stands_on()
    there = {crate for crate in crates if crate.startswith("dns_")}
    shown = {crate for it in GROUPS for crate in it[5].split() if crate.startswith("dns_")}
    for crate in sorted(there ^ shown):
        print(f"{crate} is {'not drawn' if crate in there else 'drawn, and crates.txt has it not'}", file=sys.stderr)
    up = [(a, b) for a, b in arrows(crates) if GROUPS[a][1] >= GROUPS[b][1]]
    for a, b in up:
        print(f"the arrow from {GROUPS[a][0]} to {GROUPS[b][0]} leads up", file=sys.stderr)
    picture = os.path.join(HERE, "layers.svg")
    if "--look" in sys.argv[1:]:
        with open(picture, encoding="utf-8") as it:
            return int(there != shown or bool(up) or it.read() != drawn(crates))
    with open(picture, "w", encoding="utf-8") as it:
        it.write(drawn(crates))
    return int(there != shown or bool(up))


sys.exit(main())
