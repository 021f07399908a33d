//! Commands for the rota's object, put together by the reference's own writer.

use super::rota;
use crate::capability::{
    Capability, READ_PERMISSION, USER_DESCRIPTOR_TYPE, USER_OBJECT_TYPE, WRITE_PERMISSION,
};
use crate::command::{Action, CDB_BYTES};
use crate::random::Random;
use crate::writer::{self, Request};

#[derive(Clone, Debug)]
pub struct Command {
    pub cdb: Vec<u8>,
    pub out: Vec<u8>,
}

/// Every position, for all commands.
fn office() -> [u8; Capability::BYTES] {
    Capability {
        object_type: USER_OBJECT_TYPE,
        permissions: READ_PERMISSION | WRITE_PERMISSION,
        descriptor_type: USER_DESCRIPTOR_TYPE,
        policy_access_tag: 0,
        boot_epoch: 0,
        allowed_partition: rota::PARTITION,
        allowed_object: rota::OBJECT,
        allowed_length: u64::MAX,
        allowed_start: 0,
    }
    .to_bytes()
}

/// None where the writer refuses it.
fn written(
    action: Action,
    start: u64,
    length: u64,
    list: Option<&[(u64, u64)]>,
    data: &[u8],
) -> Option<Command> {
    let (offsets, lengths): (Vec<u64>, Vec<u64>) = list.unwrap_or_default().iter().copied().unzip();
    let request = Request {
        service_action: action.code().into(),
        partition_id: rota::PARTITION,
        user_object_id: rota::OBJECT,
        start,
        length,
        has_list: list.is_some(),
        offsets: &offsets,
        lengths: &lengths,
        capabilities: &office(),
    };
    let mut cdb = vec![0; CDB_BYTES];
    let mut out = vec![0; 2048];
    match writer::write(&request, &mut cdb, &mut out) {
        (0, segment_length) => {
            out.truncate(segment_length as usize);
            out.extend(data);
            Some(Command { cdb, out })
        }
        _ => None,
    }
}

/// Writes a name to each of the posts, by one command.
pub fn put_names(posts: &[(usize, &str)]) -> Command {
    let list: Vec<(u64, u64)> = posts
        .iter()
        .map(|&(post, _)| (rota::PLACES[post], rota::NAME_BYTES as u64))
        .collect();
    let data: Vec<u8> = posts
        .iter()
        .flat_map(|&(_, name)| rota::padded(name))
        .collect();
    written(Action::Write, 0, 0, Some(&list), &data).expect("the posts lie apart")
}

pub fn read(start: u64, length: u64) -> Command {
    written(Action::Read, start, length, None, &[]).expect("a READ can be written")
}

/// Any command on small ranges, most of them near the object's bytes.
pub fn draw(random: &mut Random) -> Command {
    loop {
        let action = random.pick(&Action::ALL);
        let count = random.between(1, 4) as usize;
        let list: Vec<(u64, u64)> = (0..count)
            .map(|_| (random.below(66_000), random.below(200)))
            .collect();
        let total: u64 = list.iter().map(|&(_, length)| length).sum();
        let data = random.bytes(total as usize + 1);
        let drawn = match action.may_have_list() && random.one_in(2) {
            true => written(action, 0, 0, Some(&list), &data),
            false => written(action, list[0].0, list[0].1, None, &data),
        };
        if let Some(command) = drawn {
            return command;
        }
    }
}
