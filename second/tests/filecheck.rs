//! The file check and its numbers.

use second::compose::Composer;
use second::filecheck::check_file;
use second::kind::Kind;
use second::order::Order;

/// Number and place of the refusal, or the items of a good file.
fn answer(stream: &Composer) -> Result<usize, (u32, usize)> {
    check_file(stream.order(), stream.bytes()).map_err(|r| (r.number(), r.place()))
}

fn big() -> Composer {
    Composer::new(Order::Big)
}

/// SOFH is 16 bytes, EOFH and IQDC are 12.
fn started() -> Composer {
    let mut file = big();
    file.int(Kind::Sofh, 0x5353_4E43);
    file
}

#[test]
fn good_files() {
    assert_eq!(answer(started().empty(Kind::Eofh)), Ok(2));
    let mut file = started();
    file.text("note")
        .int(Kind::Eofh, 1)
        .empty(Kind::Eofh)
        .empty(Kind::Ssnc)
        .shorts(Kind::Ssnc, 1, &[1, 2])
        .chunk_of(3, &[])
        .empty(Kind::Eofh);
    assert_eq!(answer(&file), Ok(8));
}

#[test]
fn not_begun() {
    assert_eq!(answer(&big()), Err((41, 0)));
    assert_eq!(answer(big().empty(Kind::Eofh)), Err((41, 0)));
    assert_eq!(answer(big().empty(Kind::Sofh)), Err((41, 0)));
    assert_eq!(
        answer(big().raw(&[0]).int(Kind::Sofh, 1).empty(Kind::Eofh)),
        Err((41, 0))
    );
    let mut cut = started();
    cut.cut(15);
    assert_eq!(answer(&cut), Err((41, 0)));
    let file = started();
    assert_eq!(
        check_file(Order::Little, file.bytes()).map_err(|r| r.number()),
        Err(41)
    );
}

#[test]
fn header_not_ended() {
    assert_eq!(answer(&started()), Err((42, 16)));
    assert_eq!(answer(started().empty(Kind::Iqdc)), Err((42, 28)));
    assert_eq!(answer(started().int(Kind::Eofh, 0)), Err((42, 32)));
    assert_eq!(
        answer(
            started()
                .empty(Kind::Iqdc)
                .empty(Kind::Gfnc)
                .empty(Kind::Eofh)
        ),
        Err((42, 28))
    );
    assert_eq!(
        answer(started().shorts(Kind::Ssnr, 1, &[]).empty(Kind::Eofh)),
        Err((42, 16))
    );
}

#[test]
fn second_start() {
    assert_eq!(
        answer(started().int(Kind::Sofh, 1).empty(Kind::Eofh)),
        Err((43, 16))
    );
    assert_eq!(
        answer(started().empty(Kind::Eofh).empty(Kind::Sofh)),
        Err((43, 28))
    );
}

#[test]
fn loose_bytes() {
    assert_eq!(
        answer(started().raw(&[0, 0]).empty(Kind::Eofh)),
        Err((44, 16))
    );
    assert_eq!(answer(started().empty(Kind::Eofh).raw(&[0])), Err((44, 28)));
    assert_eq!(
        answer(
            started()
                .empty(Kind::Eofh)
                .empty(Kind::Iqdc)
                .header(Kind::Cf.code(), 8)
        ),
        Err((44, 40))
    );
}

/// A file that ends inside a sync word isn't whole, in its header or behind it.
#[test]
fn begun_sync_words() {
    for len in 1..4 {
        let tail = &Order::Big.sync()[..len];
        assert_eq!(answer(big().raw(tail)), Err((41, 0)));
        assert_eq!(answer(started().raw(tail)), Err((44, 16)));
        assert_eq!(answer(started().empty(Kind::Eofh).raw(tail)), Err((44, 28)));
        assert_eq!(
            answer(started().int(Kind::Sofh, 1).raw(tail)),
            Err((43, 16))
        );
    }
}

#[test]
fn first_in_file_order() {
    // Loose bytes before the missing end of the header.
    assert_eq!(answer(started().raw(&[0])), Err((44, 16)));
    // Data, then a second start, then loose bytes.
    assert_eq!(
        answer(started().empty(Kind::Ssnc).int(Kind::Sofh, 1).raw(&[0])),
        Err((42, 16))
    );
    assert_eq!(
        answer(started().int(Kind::Sofh, 1).empty(Kind::Ssnc)),
        Err((43, 16))
    );
}
