//! That the driver fails where the linked library differs.
use comparison::{
    Library,
    question::Question,
    request::Request,
    run, run_with_messages,
    wrong::{Spoil, controllers, of_messages},
};
use driver::Vgic;

/// The library, with one bit of one word changed in every read of RPR.
struct Spoiled;

impl Library for Spoiled {
    fn state_words(&self, count: u64, limit: u64) -> u64 {
        Vgic.state_words(count, limit)
    }

    fn image_bytes(&self, count: u64, limit: u64) -> u64 {
        Vgic.image_bytes(count, limit)
    }

    fn image_shape(&self, image: &[u8]) -> u64 {
        Vgic.image_shape(image)
    }

    fn call(&self, words: &mut [u32], buffer: &mut [u8], request: &Request) -> u64 {
        let answer = Vgic.call(words, buffer, request);
        if let (Request::Read(at), Some(last)) = (request, words.last_mut())
            && at.offset == 0x14
            && answer >> 56 == 0
        {
            *last ^= 1 << 30;
        }
        answer
    }

    fn ask(&self, words: &[u32], question: &Question) -> u64 {
        Vgic.ask(words, question)
    }
}

/// The library, with vCPU 1's IRQ line always down.
struct Silent;

impl Library for Silent {
    fn state_words(&self, count: u64, limit: u64) -> u64 {
        Vgic.state_words(count, limit)
    }

    fn image_bytes(&self, count: u64, limit: u64) -> u64 {
        Vgic.image_bytes(count, limit)
    }

    fn image_shape(&self, image: &[u8]) -> u64 {
        Vgic.image_shape(image)
    }

    fn call(&self, words: &mut [u32], buffer: &mut [u8], request: &Request) -> u64 {
        Vgic.call(words, buffer, request)
    }

    fn ask(&self, words: &[u32], question: &Question) -> u64 {
        let answer = Vgic.ask(words, question);
        match question {
            Question::IrqLevel { vcpu: 1 } => answer & !1,
            _ => answer,
        }
    }
}

/// The library, with the rule of request Two, Four, Five or Seven taken wrong.
struct Wrong(Spoil);

impl Library for Wrong {
    fn state_words(&self, count: u64, limit: u64) -> u64 {
        Vgic.state_words(count, limit)
    }

    fn image_bytes(&self, count: u64, limit: u64) -> u64 {
        Vgic.image_bytes(count, limit)
    }

    fn image_shape(&self, image: &[u8]) -> u64 {
        Vgic.image_shape(image)
    }

    fn call(&self, words: &mut [u32], buffer: &mut [u8], request: &Request) -> u64 {
        let before = words.to_vec();
        let mut answer = Vgic.call(words, buffer, request);
        (self.0)(request, &before, &mut answer, words);
        answer
    }

    fn ask(&self, words: &[u32], question: &Question) -> u64 {
        Vgic.ask(words, question)
    }
}

#[test]
fn a_request_taken_wrong_is_found() {
    for wrong in controllers() {
        let library = Wrong(wrong.spoil);
        let case = run(&library, 1, 50_000).expect_err(wrong.what);
        wrong.is_told(wrong.at_most, &case.shrunk(&library));
    }
}

#[test]
fn a_request_taken_wrong_is_found_among_messages() {
    for wrong in controllers().chain(of_messages()) {
        let library = Wrong(wrong.spoil);
        let case = run_with_messages(&library, 1, 50_000).expect_err(wrong.what);
        wrong.is_told(wrong.among_messages, &case.shrunk(&library));
    }
}

#[test]
fn a_wrong_line_is_found() {
    let case = run(&Silent, 1, 50_000).expect_err("a difference");
    let case = case.shrunk(&Silent);
    assert!(case.requests.len() <= 6, "{}", case.text());
    assert!(
        case.text().contains("IRQ line of vCPU 1"),
        "{}",
        case.text()
    );
}

#[test]
fn a_changed_word_is_found() {
    let case = run(&Spoiled, 1, 50_000).expect_err("a difference");
    let case = case.shrunk(&Spoiled);
    assert!(case.requests.len() <= 2, "{}", case.text());
}

#[test]
fn the_library_itself_passes() {
    let tallies = run(&Vgic, 2, 50_000);
    assert!(tallies.is_ok(), "{}", tallies.unwrap_err().text());
}

#[test]
fn the_library_itself_passes_with_messages() {
    let tallies = run_with_messages(&Vgic, 2, 50_000);
    assert!(tallies.is_ok(), "{}", tallies.unwrap_err().text());
}
