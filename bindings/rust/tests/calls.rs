//! The calls from Rust, with answers written from document 01. c/test.c has the same and more; what is tried here is that the crate says what
//! the library answers.
use std::{fmt::Write, fs};
use tunnels::*;

const MARK: u32 = 0x5a5a_5a5a;

fn ours() -> Vec<u32> {
    let mut words = vec![0; OUR_WORDS];
    assert_eq!(our_descriptions(&mut words).unwrap().len(), OUR_WORDS);
    words
}

fn survey(lines: &str) -> Vec<u32> {
    let mut words = vec![0; MAX_WORDS];
    text(lines.as_bytes(), &mut words).unwrap().to_vec()
}

fn example(name: &str) -> String {
    fs::read_to_string(format!("{}/../../examples/{name}", env!("CARGO_MANIFEST_DIR"))).unwrap()
}

/// A router at a route with ROUTER_CS_1, and an adapter of a kind by its code.
fn router(route: &str, cs1: &str) -> String {
    format!("@router 0 {route}\n@regs\n1 1 0 0 {cs1}\n")
}

fn read(number: u8, code: &str) -> String {
    format!("@adapter {number}\n@regs\n0 0 0 0 0\n1 1 0 0 0\n2 2 0 0 {code}\n")
}

fn site(place: usize, adapter: u8) -> Site {
    Site { place, adapter }
}

#[test]
fn numbers_and_lines() {
    assert_eq!(parse_hex(b"0x+fF", 16), Ok(Some(255)));
    assert_eq!(parse_hex(b"ffffffffffffffff", 64), Ok(Some(u64::MAX)));
    assert_eq!(parse_hex(b"10000", 16), Ok(None));
    assert_eq!(parse_hex(b"", 32), Ok(None));
    assert_eq!(parse_hex(b"1", 33), Ok(None));
    let record = Record { offset: 57, relative_offset: 0, cap_id: 4, vs_id: 0, value: 0x8000_0000 };
    assert_eq!(parse_line(b"39 0 4 0 80000000"), Ok(Some(record)));
    let most = Record { offset: 65_535, relative_offset: 65_535, cap_id: 65_535, vs_id: 65_535, value: u32::MAX };
    assert_eq!(parse_line(b"ffff 65535 ffff ffff ffffffff"), Ok(Some(most)));
    assert_eq!(parse_line(b"0x10 0 1"), Ok(None));
    assert_eq!(parse_line(b""), Ok(None));
    assert_eq!(parse_line(b"0 0 0 \x80"), Err(Refusal::NotAscii { place: 6 }));
}

#[test]
fn dumps() {
    let dump = b"10 0 junk 2\n5 1 6 7 1\n";
    let (mut scratch, mut output) = ([MARK; 9], [MARK; 9]);
    assert_eq!(read_dump(dump, &mut scratch[..7], &mut output), Err(Refusal::Short { needed: 8 }));
    assert_eq!(read_dump(dump, &mut scratch, &mut output[..7]), Err(Refusal::Short { needed: 8 }));
    assert_eq!((scratch, output), ([MARK; 9], [MARK; 9]));
    let words = read_dump(dump, &mut scratch, &mut output).unwrap();
    let want = [
        Record { offset: 5, relative_offset: 1, cap_id: 6, vs_id: 7, value: 1 },
        Record { offset: 16, relative_offset: 0, cap_id: 0, vs_id: 0, value: 2 },
    ];
    assert_eq!(records(words).collect::<Vec<_>>(), want);
    assert_eq!((scratch, output[8]), ([0; 9], MARK));
    assert_eq!(read_dump(b"", &mut [], &mut []), Ok(&[][..]));
}

#[test]
fn descriptions() {
    let d = ours();
    assert_eq!(our_descriptions(&mut [0; OUR_WORDS - 1]), Err(Refusal::Short { needed: OUR_WORDS }));
    assert_eq!(check_descriptions(&[]), Ok(()));
    assert_eq!(check_descriptions(&d), Ok(()));
    assert_eq!(check_descriptions(&d[..90]), Err(Refusal::Descriptions { place: 88 }));
    assert_eq!(check_descriptions(&vec![0; MAX_WORDS + 1]), Err(Refusal::Descriptions { place: MAX_WORDS }));
    assert_eq!(describe(&d, Space::Router, Kind::Unknown, 1, 0, 0), Ok(Some(0)));
    assert_eq!(describe(&d, Space::Adapter, Kind::Lane, 1, 1, 0), Ok(Some(25)));
    assert_eq!(describe(&d, Space::Adapter, Kind::PcieUp, 1, 1, 0), Ok(None));
    assert_eq!(describe(&d, Space::Path, Kind::Usb3GenTUp, u16::MAX, u16::MAX, u16::MAX), Ok(None));
    assert_eq!(field(&d, 0, 0xc300, b"max adapter"), Ok(3));
    assert_eq!(field(&d, 0, 0xc300, b""), Err(Refusal::NoField(None)));
    assert_eq!(field(&d, usize::MAX, 0xc300, b"Max Adapter"), Err(Refusal::NoField(None)));
    assert_eq!(field(&[0], 0, 0, b"V"), Err(Refusal::Descriptions { place: 0 }));
}

#[test]
fn texts() {
    let mut words = [MARK; 5];
    assert_eq!(text(b"@router 0 0\n", &mut words[..3]), Err(Refusal::Short { needed: 4 }));
    assert_eq!(text(&[b' '; MAX_TEXT + 1], &mut words), Err(Refusal::Short { needed: MAX_TEXT + 1 }));
    assert_eq!(text(b"\xff", &mut words), Err(Refusal::NotAscii { place: 0 }));
    assert_eq!(text(b"@router 0 0\n@paths\n", &mut words), Err(Refusal::Survey { place: 4 }));
    assert_eq!(words, [MARK; 5]);
    assert_eq!(text(b"@router 0 0\n", &mut words), Ok(&[0x3100_0000, 0, 0, 0][..]));
    assert_eq!(words[4], MARK);
    assert_eq!(text(b"", &mut []), Ok(&[][..]));
    assert_eq!(check_survey(&[]), Ok(()));
    assert_eq!(check_survey(&words), Err(Refusal::Survey { place: 4 }));
}

#[test]
fn loading() {
    let d = ours();
    let refused = |lines: &str| {
        let s = survey(lines);
        let mut output = [MARK; 3];
        let refusal = load(&d, &s).unwrap_err();
        assert_eq!(adapter(&d, &s, 0, 1), Err(refusal));
        assert_eq!(link_speed(&d, &s, 0, 1), Err(refusal));
        assert_eq!(max_hop(&d, &s, 0, 1), Err(refusal));
        assert_eq!(parent(&d, &s, 0), Err(refusal));
        assert_eq!(walk(&d, &s, 0, 1, 8, &mut output), Err(refusal));
        assert_eq!(discover(&d, &s, 0, 1, &mut output).unwrap_err(), refusal);
        assert_eq!(output, [MARK; 3]);
        refusal
    };
    assert_eq!(load(&d, &[]), Ok(Loaded { devices: 0, entries: 0 }));
    assert_eq!(load(&d, &[0]), Err(Refusal::Survey { place: 0 }));
    assert_eq!(load(&[0], &[0]), Err(Refusal::Descriptions { place: 0 }));
    assert_eq!(refused("@router 0 0\n@router 0 0\n@regs\n"), Refusal::FewRegisters(site(1, 0)));
    assert_eq!(refused(&(router("0", "4000") + &read(1, "1") + "@paths\n10 1 8 0\n")), Refusal::NoField(Some(site(0, 1))));
    assert_eq!(refused("@xdomain 0 1\n@adapter 1\n"), Refusal::BadAdapters(site(0, 0)));
    assert_eq!(refused(&(router("0", "4000") + &read(1, "1") + "@nopaths\n")), Refusal::NoPathDump(site(0, 1)));
    // 8: descriptions that have a Gen T Port Count, and a capability whose first port is past 65,535
    let mut gen_t = d.clone();
    let name = |s: &str| s.as_bytes().chunks(4).map(|b| u32::from_le_bytes(b.try_into().unwrap())).collect::<Vec<_>>();
    gen_t.extend([1 << 28 | 1 << 26 | 1 << 25 | 16 << 16, 4 << 16, 1 << 12 | 1 << 11]);
    gen_t.extend(name("ADP_USB3_GT_CS_0"));
    gen_t.push(2 << 28 | 7 << 18 | 16 << 8);
    gen_t.extend(name("Gen T Port Count"));
    let s = survey(&(router("0", "4000") + &read(1, "210102") + "fffd 0 4 0 1\n"));
    assert_eq!(load(&gen_t, &s), Err(Refusal::GenTOffset(site(0, 1))));
}

#[test]
fn adapters() {
    let mut d = ours();
    let s = survey(&(router("0", "c000") + &read(1, "1") + "5 5 0 0 7ff\n31 1 1 0 08040000\n" + &read(2, "1") + "@adapter 3\n"));
    let lane = Adapter { kind: Kind::Lane, state: State::Cl0, lane0: true, lane1: false, min_hop: Some(8), enabled: false };
    assert_eq!(adapter(&d, &s, 0, 1), Ok(lane));
    assert_eq!(adapter(&d, &s, 0, 2), Ok(Adapter { state: State::Unknown, lane0: false, lane1: true, ..lane }));
    let unread = Adapter { kind: Kind::Inactive, state: State::Unknown, lane0: false, lane1: false, min_hop: None, enabled: false };
    assert_eq!(adapter(&d, &s, 0, 3), Ok(unread));
    assert_eq!(link_speed(&d, &s, 0, 1), Ok(Speed::Gen3));
    assert_eq!(max_hop(&d, &s, 0, 1), Ok(Some(2047)));
    assert_eq!(max_hop(&d, &s, 0, 2), Ok(None));
    for (place, number) in [(0, 0), (0, 4), (0, 255), (1, 1), (usize::MAX, 1)] {
        assert_eq!(adapter(&d, &s, place, number), Err(Refusal::Missing));
        assert_eq!(walk(&d, &s, place, number, u16::MAX, &mut []), Err(Refusal::Missing));
        assert_eq!(discover(&d, &s, place, number, &mut []).unwrap_err(), Refusal::Missing);
    }
    assert_eq!(parent(&d, &s, usize::MAX), Err(Refusal::Missing));
    assert_eq!(walk(&d, &s, 0, 1, u16::MAX, &mut []), Ok(None));
    d[33] ^= 1; // Current Link Speed by another name
    assert_eq!(link_speed(&d, &s, 0, 1), Err(Refusal::NoField(Some(site(0, 1)))));
}

#[test]
fn walks() {
    let d = ours();
    let from = |lines: String| walk(&d, &survey(&lines), 0, 1, 8, &mut []).unwrap_err();
    let lane = |entry: &str| read(1, "1") + "@paths\n10 0 8 " + entry + "\n";
    assert_eq!(from(router("0", "4000") + &lane("80002808")), Refusal::NoOutAdapter(site(0, 5)));
    assert_eq!(from(router("0", "4100") + &lane("80000808")), Refusal::NoParentRoute(site(0, 1)));
    assert_eq!(from(router("100000000000000", "4000") + &lane("80000808")), Refusal::NoDownstreamRoute(site(0, 1)));
    assert_eq!(from(router("0", "4000") + &lane("80000808") + &router("1", "4100") + &lane("80000808")), Refusal::Endless);
    let s = survey(&(router("0", "4000") + &read(1, "100101") + "@paths\nfffe 0 8 80000fff\n"));
    let mut output = [0; 3];
    let path = walk(&d, &s, 0, 1, 32_767, &mut output).unwrap().unwrap();
    let hop = Hop { place: 0, in_adapter: 1, in_hop: 32_767, out_adapter: 1, out_hop: 2047 };
    assert_eq!(path.hops().collect::<Vec<_>>(), [hop]);
    assert_eq!(walk(&d, &s, 0, 1, 4095, &mut output), Ok(None));
    let s = survey("@xdomain 0 0\n");
    assert_eq!(parent(&d, &s, 0), Err(Refusal::NoParentRoute(site(0, 0))));
}

#[test]
fn absent_and_empty() {
    let d = ours();
    let s = survey(&(router("0", "c000") + &read(1, "2") + &read(2, "2") + "5 5 0 0 0\n" + &read(3, "1")));
    assert!(discover(&d, &s, 0, 1, &mut []).unwrap().is_none());
    assert!(discover(&d, &s, 0, 3, &mut []).unwrap().is_none());
    assert_eq!(discover(&d, &s, 0, 2, &mut []).unwrap().unwrap().count(), 0);
}

#[test]
fn worked_example() {
    let (d, s) = (ours(), survey(&example("worked.txt")));
    assert_eq!(load(&d, &s), Ok(Loaded { devices: 2, entries: 4 }));
    assert_eq!((parent(&d, &s, 0), parent(&d, &s, 1)), (Ok(None), Ok(Some(0))));
    let hop = |place, in_adapter, out_adapter| Hop { place, in_adapter, in_hop: 8, out_adapter, out_hop: 8 };

    let mut output = [MARK; 6];
    for room in [0, 4] {
        assert_eq!(walk(&d, &s, 0, 2, 8, &mut output[..room]), Err(Refusal::Short { needed: 5 }));
    }
    assert_eq!(walk(&d, &s, 0, 2, 9, &mut output), Ok(None));
    assert_eq!(output, [MARK; 6]);
    let path = walk(&d, &s, 0, 2, 8, &mut output).unwrap().unwrap();
    assert_eq!(path.name, None);
    assert_eq!(path.hops().collect::<Vec<_>>(), [hop(0, 2, 1), hop(1, 1, 2)]);
    assert_eq!(output[5], MARK);

    let mut output = [MARK; 12];
    assert_eq!(discover(&d, &s, 0, 2, &mut output[..10]).unwrap_err(), Refusal::Short { needed: 11 });
    assert_eq!(output, [MARK; 12]);
    let found: Vec<Tunnel> = discover(&d, &s, 0, 2, &mut output).unwrap().unwrap().collect();
    assert_eq!(found.len(), 1);
    assert_eq!((found[0].kind, found[0].closed, found[0].source()), (TunnelType::Pcie, true, Some(hop(0, 2, 1))));
    let paths: Vec<_> = found[0].paths().map(|p| (p.name, p.hops().collect::<Vec<_>>())).collect();
    let down = (Some(PathName::PcieDown), vec![hop(0, 2, 1), hop(1, 1, 2)]);
    let up = (Some(PathName::PcieUp), vec![hop(1, 2, 1), hop(0, 1, 2)]);
    assert_eq!(paths, [down, up]);
    assert_eq!(output[11], MARK);
}

/// The whole program over the calls: what is printed of a text.
fn printed(lines: &str) -> String {
    let (d, s) = (ours(), survey(lines));
    let (mut page, mut tunnels) = (String::new(), 0);
    for place in 0..load(&d, &s).unwrap().devices {
        for number in 1..=255 {
            let mut output = [0; 256];
            let found = match discover(&d, &s, place, number, &mut output) {
                Err(Refusal::Missing) => break,
                found => found.unwrap(),
            };
            for tunnel in found.into_iter().flatten() {
                tunnels += 1;
                let kind = match tunnel.kind {
                    TunnelType::Usb3 => "USB 3",
                    TunnelType::DisplayPort => "DisplayPort",
                    TunnelType::Pcie => "PCIe",
                    TunnelType::Dma => "DMA",
                };
                let (source, closed) = (tunnel.source().unwrap(), if tunnel.closed { "closed" } else { "open" });
                writeln!(page, "{kind} from {}:{} paths {} {closed}", source.place, source.in_adapter, tunnel.paths().count()).unwrap();
                for path in tunnel.paths() {
                    let name = match path.name.unwrap() {
                        PathName::Usb3Down => "USB 3 Down",
                        PathName::Usb3Up => "USB 3 Up",
                        PathName::Video => "Video",
                        PathName::AuxTx => "AUX TX",
                        PathName::AuxRx => "AUX RX",
                        PathName::PcieDown => "PCIe Down",
                        PathName::PcieUp => "PCIe Up",
                        PathName::DmaTx => "DMA TX",
                        PathName::DmaRx => "DMA RX",
                    };
                    writeln!(page, "{name} hops {}", path.hops().len()).unwrap();
                    for h in path.hops() {
                        writeln!(page, "{} {} {} {} {}", h.place, h.in_adapter, h.in_hop, h.out_adapter, h.out_hop).unwrap();
                    }
                }
            }
        }
    }
    format!("tunnels {tunnels}\n{page}")
}

#[test]
fn program() {
    for name in ["worked", "three-deep"] {
        assert_eq!(printed(&example(&format!("{name}.txt"))), example(&format!("{name}.out")));
    }
}

#[test]
fn words_of_others() {
    // cut off, of another kind, of no type: no tunnel, and no panic
    for words in [&[][..], &[0x8000_0100], &[0x8000_0100, 0x9000_0001, 0], &[0x8000_0004], &[0x9000_0000], &[u32::MAX]] {
        assert_eq!(Tunnels::new(words).count(), 0);
    }
    assert_eq!(Tunnels::new(&[0x8000_0000, 0x8000_0100]).count(), 1);
    assert!(Path::split(&[0x9000_ffff]).is_none());
    assert_eq!(records(&[0; 7]).len(), 1);
}

#[test]
fn refusals_say_their_number() {
    assert_eq!(Refusal::NoOutAdapter(site(0, 5)).to_string(), "refused 10: a hop's out adapter isn't on its router, device 0 adapter 5");
    assert_eq!(Refusal::Other { number: 15, values: [0; 7] }.number(), 15);
}
