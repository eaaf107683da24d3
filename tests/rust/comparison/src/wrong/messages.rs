//! Request Seven taken wrong: which windows there are, what stands in the frame, which number is rung and how.
use super::{Controller, is_accepted, wrong};
use crate::{
    request::{FramePlace, Request, packed},
    slots::{EDGE, INFLIGHT, LINE, NOTE, has_bit, put, put_bit, record},
};
use oracle::{
    machine::{Input, Machine, SPURIOUS},
    message_frame::{SETSPI, SIZE, TYPER, Window},
};

pub const CONTROLLERS: [Controller; 37] = [
    wrong(
        "rings one past the window",
        2,
        |request, before, given, words| {
            also(request, before, given, words, |window, number| {
                (number == window.first + window.count).then_some(number)
            });
        },
    ),
    wrong(
        "rings one before the window",
        2,
        |request, before, given, words| {
            also(request, before, given, words, |window, number| {
                (number + 1 == window.first).then_some(number)
            });
        },
    ),
    wrong("rings any SPI", 2, |request, before, given, words| {
        also(request, before, given, words, |_, number| Some(number));
    }),
    wrong(
        "takes 10 bits of a value for the number",
        2,
        |request, before, given, words| {
            also(request, before, given, words, |window, number| {
                Some(number % 1024).filter(|it| window.contains(*it))
            });
        },
    ),
    wrong(
        "takes 16 bits of a value for the number",
        2,
        |request, before, given, words| {
            also(request, before, given, words, |window, number| {
                Some(number % 65536).filter(|it| window.contains(*it))
            });
        },
    ),
    wrong(
        "takes 64 bits of a value for the number",
        2,
        |request, before, given, words| {
            if let Request::WriteMessageFrame(_, value) = request
                && rung(request, *given).is_some()
                && *value >> 32 != 0
            {
                nothing(before, given, words);
            }
        },
    ),
    wrong(
        "takes the number for a place in the window",
        2,
        |request, before, given, words| {
            if let Request::WriteMessageFrame(at, value) = request
                && is_message(request)
                && is_accepted(*given)
            {
                let place = *value & 0xffff_ffff;
                nothing(before, given, words);
                if place < at.window.count {
                    pulse(at.window.first + place, before, given, words);
                }
            }
        },
    ),
    wrong(
        "refuses a number that the window does not have",
        2,
        |request, _, given, _| {
            if is_message(request) && is_accepted(*given) && request.rings().is_none() {
                *given = refused(8);
            }
        },
    ),
    wrong(
        "takes a window without numbers",
        2,
        |request, before, given, words| {
            let taken =
                |window: Window, limit| window.count == 0 && (32..limit).contains(&window.first);
            takes(request, before, given, words, taken);
        },
    ),
    wrong(
        "takes a window from 31 on",
        2,
        |request, before, given, words| {
            let taken = |window: Window, limit| {
                window.first == 31 && (2..=limit - 31).contains(&window.count)
            };
            takes(request, before, given, words, taken);
        },
    ),
    wrong(
        "takes a window up to the limit and with it",
        2,
        |request, before, given, words| {
            let taken = |window: Window, limit| {
                (32..limit).contains(&window.first) && window.count == limit - window.first + 1
            };
            takes(request, before, given, words, taken);
        },
    ),
    wrong(
        "takes a window that begins at the limit",
        2,
        |request, before, given, words| {
            let taken = |window: Window, limit| window.first == limit && window.count == 1;
            takes(request, before, given, words, taken);
        },
    ),
    wrong(
        "takes a window whose sum overflows",
        2,
        |request, before, given, words| {
            let taken = |window: Window, limit| {
                let end = window.first.wrapping_add(window.count);
                window.first >= 32 && window.count >= 1 && end <= limit
            };
            takes(request, before, given, words, taken);
        },
    ),
    wrong(
        "cuts a window to 32 bits",
        2,
        |request, before, given, words| {
            let taken = |window: Window, limit| cut(window).lies_below(limit);
            takes(request, before, given, words, taken);
        },
    ),
    wrong(
        "takes any window in a read",
        2,
        |request, before, given, words| {
            if matches!(request, Request::ReadMessageFrame(_)) {
                takes(request, before, given, words, |_, _| true);
            }
        },
    ),
    wrong(
        "looks at the window at its registers alone",
        2,
        |request, before, given, words| {
            if request.message_frame().is_some_and(|at| !is_register(&at)) {
                takes(request, before, given, words, |_, _| true);
            }
        },
    ),
    wrong(
        "refuses a window after the place",
        2,
        |request, _, given, _| {
            later(request, given, 1);
        },
    ),
    wrong(
        "refuses a window after the width",
        2,
        |request, _, given, _| {
            later(request, given, 2);
        },
    ),
    wrong(
        "refuses a window before words that are no state",
        1,
        |request, _, given, _| {
            if let (Some(at), 6) = (request.message_frame(), *given >> 56)
                && !at.window.lies_below(1020)
            {
                *given = refused(11);
            }
        },
    ),
    wrong(
        "rings by a window that it refuses",
        2,
        |request, before, given, words| {
            if let (Some(number), 11) = (request.rings(), *given >> 56)
                && (32..before[1] as usize).contains(&number)
            {
                pulse(number as u64, before, &mut 0, words);
            }
        },
    ),
    wrong(
        "refuses a window before a width that is none",
        1,
        |request, _, given, _| {
            if let (Some(at), 2) = (request.message_frame(), *given >> 56)
                && !at.window.lies_below(1020)
                && ![1, 2, 4, 8].contains(&at.width)
            {
                *given = refused(11);
            }
        },
    ),
    wrong("swaps the fields of TYPER", 2, |request, _, given, _| {
        reads(request, given, TYPER, |Window { first, count }| {
            count << 16 | first
        });
    }),
    wrong(
        "tells the last number in TYPER",
        2,
        |request, _, given, _| {
            reads(request, given, TYPER, |Window { first, count }| {
                first << 16 | (first + count - 1)
            });
        },
    ),
    wrong("tells one fewer in TYPER", 2, |request, _, given, _| {
        reads(request, given, TYPER, |Window { first, count }| {
            first << 16 | (count - 1)
        });
    }),
    wrong(
        "reads the first number back from SETSPI",
        2,
        |request, _, given, _| {
            reads(request, given, SETSPI, |window| window.first);
        },
    ),
    wrong(
        "rings by a write of TYPER",
        2,
        |request, before, given, words| {
            elsewhere(request, before, given, words, |at| at.offset == TYPER);
        },
    ),
    wrong(
        "rings by a start inside SETSPI",
        4,
        |request, before, given, words| {
            elsewhere(request, before, given, words, |at| {
                (SETSPI + 1..SETSPI + 4).contains(&at.offset)
            });
        },
    ),
    wrong(
        "takes other widths at SETSPI",
        2,
        |request, before, given, words| {
            if let (Some(at), 2) = (request.message_frame(), *given >> 56)
                && at.offset == SETSPI
                && [1, 2, 8].contains(&at.width)
            {
                instead(request.clone().at_width(4), before, given, words);
            }
        },
    ),
    wrong(
        "refuses a start inside a register by 2",
        2,
        |request, _, given, _| {
            if let Some(at) = request.message_frame()
                && is_accepted(*given)
                && [TYPER, SETSPI].contains(&(at.offset & !3))
                && !is_register(&at)
            {
                *given = refused(2);
            }
        },
    ),
    wrong(
        "has a frame of 64 KiB",
        2,
        |request, before, given, words| {
            if let (Some(at), 1) = (request.message_frame(), *given >> 56)
                && (SIZE..0x10000).contains(&at.offset)
                && at.offset % at.width == 0
            {
                nothing(before, given, words);
            }
        },
    ),
    wrong("raises the line", 2, |request, _, given, words| {
        if let Some(number) = rung(request, *given) {
            words[record(words, 0, number)] |= LINE;
        }
    }),
    wrong(
        "does not ring one in flight",
        9,
        |request, before, given, words| {
            if let Some(number) = rung(request, *given)
                && before[record(before, 0, number)] & INFLIGHT != 0
            {
                nothing(before, given, words);
            }
        },
    ),
    wrong(
        "notes nothing of one in flight",
        9,
        |request, before, given, words| {
            if let Some(number) = rung(request, *given) {
                let at = record(before, 0, number);
                words[at] = words[at] & !NOTE | before[at] & NOTE;
            }
        },
    ),
    wrong(
        "rings edge SPIs alone",
        2,
        |request, before, given, words| {
            if let Some(number) = rung(request, *given)
                && before[record(before, 0, number)] & EDGE == 0
            {
                nothing(before, given, words);
            }
        },
    ),
    wrong("wakes nobody by a message", 9, |request, _, given, _| {
        if request.rings().is_some() {
            *given &= !(0xff << 48);
        }
    }),
    wrong("wakes one vCPU at the most", 12, |request, _, given, _| {
        let woken = *given >> 48 & 0xff;
        if request.rings().is_some() {
            let lowest = woken & woken.wrapping_neg();
            *given ^= (woken ^ lowest) << 48;
        }
    }),
    wrong(
        "leaves the bit of what it rings",
        4,
        |request, before, given, words| {
            if let Some(number) = rung(request, *given) {
                put_bit(words, number, has_bit(before, number));
            }
        },
    ),
];

fn accepted(value: u64) -> u64 {
    u64::from(SPURIOUS) << 32 | value
}

fn refused(by: u64) -> u64 {
    by << 56 | u64::from(SPURIOUS) << 32
}

fn is_register(at: &FramePlace) -> bool {
    [TYPER, SETSPI].contains(&at.offset)
}

/// A write of SETSPI, whatever becomes of it.
fn is_message(request: &Request) -> bool {
    matches!(request, Request::WriteMessageFrame(at, _) if at.offset == SETSPI)
}

/// The SPI that was rung.
fn rung(request: &Request, given: u64) -> Option<usize> {
    request.rings().filter(|_| is_accepted(given))
}

/// Accepted, and does nothing.
fn nothing(before: &[u32], given: &mut u64, words: &mut [u32]) {
    words.copy_from_slice(before);
    *given = accepted(0);
}

/// Does another call in the place of this one.
fn instead(other: Request, before: &[u32], given: &mut u64, words: &mut [u32]) {
    let (mut machine, mut after) = (Machine::lent(before), vec![]);
    let call = other.call().expect("a width");
    *given = packed(&machine.call(&call).expect("a sound oracle"));
    machine.write_words(&mut after);
    words.copy_from_slice(before);
    put(words, &after);
}

fn pulse(number: u64, before: &[u32], given: &mut u64, words: &mut [u32]) {
    let input = Input { vcpu: 0, number };
    instead(Request::Pulse(input), before, given, words);
}

/// A message that rings nothing rings this SPI, which hangs on the window and the number.
fn also(
    request: &Request,
    before: &[u32],
    given: &mut u64,
    words: &mut [u32],
    other: fn(Window, u64) -> Option<u64>,
) {
    if let Request::WriteMessageFrame(at, value) = request
        && is_message(request)
        && is_accepted(*given)
        && request.rings().is_none()
        && let Some(number) = other(at.window, value & 0xffff_ffff)
        && (32..before[1].into()).contains(&number)
    {
        pulse(number, before, given, words);
    }
}

/// A write elsewhere rings the SPI that it names.
fn elsewhere(
    request: &Request,
    before: &[u32],
    given: &mut u64,
    words: &mut [u32],
    there: fn(&FramePlace) -> bool,
) {
    if let Request::WriteMessageFrame(at, value) = request
        && there(at)
        && is_accepted(*given)
        && at.window.contains(value & 0xffff_ffff)
    {
        pulse(value & 0xffff_ffff, before, given, words);
    }
}

/// A window that is refused is taken for that of all SPIs, if this says so of it and of the limit.
fn takes(
    request: &Request,
    before: &[u32],
    given: &mut u64,
    words: &mut [u32],
    taken: fn(Window, u64) -> bool,
) {
    if let (Some(at), 11) = (request.message_frame(), *given >> 56)
        && let limit @ 33.. = u64::from(before[1])
        && taken(at.window, limit)
    {
        let (first, count) = (32, limit - 32);
        let window = Window { first, count };
        let all = FramePlace { window, ..at };
        let other = match *request {
            Request::WriteMessageFrame(_, value) => Request::WriteMessageFrame(all, value),
            _ => Request::ReadMessageFrame(all),
        };
        instead(other, before, given, words);
    }
}

fn cut(Window { first, count }: Window) -> Window {
    Window {
        first: first & 0xffff_ffff,
        count: count & 0xffff_ffff,
    }
}

/// Refuses a bad window by this number, where its place would be refused so.
fn later(request: &Request, given: &mut u64, by: u64) {
    if let (Some(at), 11) = (request.message_frame(), *given >> 56)
        && of_place(&at) == by
    {
        *given = refused(by);
    }
}

/// What an access there is refused by, if its window is none to be refused; 0 for nothing.
fn of_place(at: &FramePlace) -> u64 {
    let end = at.offset.checked_add(at.width);
    if !at.offset.is_multiple_of(at.width) || end.is_none_or(|end| end > SIZE) {
        1
    } else if is_register(at) && at.width != 4 {
        2
    } else {
        0
    }
}

/// Reads something else at a register.
fn reads(request: &Request, given: &mut u64, register: u64, other: fn(Window) -> u64) {
    if let Request::ReadMessageFrame(at) = request
        && at.offset == register
        && is_accepted(*given)
    {
        *given = accepted(other(at.window));
    }
}
