//! A small gateway: the tolerance limits of some laboratories, each in a file system of its own, under one tree.
//!
//! It tells by stamps whether a kept number is still good, and hands all that it knows to the next gateway. It writes no
//! record on a disk, so after a crash all stamps are new, and sessions open all again. A call here waits for the requests
//! that use the backend which it took off, and not for those of an earlier call; a handover does not wait. docs/GUARANTEES.md,
//! "How a gateway tells" and "Around a restart", says what a gateway owes besides.
use galdovar::{
    convert_inode, Backend, BackendNumber, Route, Tag, Vfs, VfsError, VfsIndex, VfsInode,
    VfsOptions,
};
use std::collections::BTreeMap;
use std::fs::File;
use std::io::{self, Read};
use std::sync::{mpsc, Arc, Mutex, RwLock};
use std::thread;

/// The file system of one laboratory. It has one file, `limits`, whose number in it is always 2.
#[derive(Clone, Copy)]
struct Limits {
    laboratory: &'static str,
    micrograms: u32,
}

const LIMITS_FILE: BackendNumber = BackendNumber(2);

impl Limits {
    fn find(&self, name: &str) -> Result<BackendNumber, VfsError> {
        Some(LIMITS_FILE).filter(|_| name == "limits").ok_or(VfsError::NoEnt)
    }

    fn read(&self, number: BackendNumber) -> Result<String, VfsError> {
        if number != LIMITS_FILE {
            return Err(VfsError::NoEnt);
        }
        let (whole, part) = (self.micrograms / 1000, self.micrograms % 1000);
        Ok(format!("{}: off by at most {}.{:03} mg on 200 g", self.laboratory, whole, part))
    }
}

/// A mount as the host knows it. Its file system has the numbers of `Backend::new`.
#[derive(Clone)]
struct Mount {
    tag: Tag,
    path: String,
    fs_idx: VfsIndex,
    limits: Limits,
}

/// A mount while it lasts. The tables share it with the requests that use it, and its drop is the end of its file system:
/// that is closed when the last of them lets go.
struct Open {
    mount: Mount,
    /// For one who waits for the end. It is dropped right behind the closing.
    end: Mutex<Option<mpsc::Sender<()>>>,
}

/// A mount that the tables have let go, and that requests may still use.
type LetGo = Option<Arc<Open>>;

/// Waits until no request uses it any more, and its file system is closed. The lock is not held meanwhile.
fn wait_for_end(old: LetGo) {
    if let Some(open) = old {
        let (sender, receiver) = mpsc::channel();
        *open.end.lock().unwrap() = Some(sender);
        drop(open);
        // Nothing is ever sent: this returns when the sender is dropped.
        let _ = receiver.recv();
    }
}

impl Drop for Open {
    fn drop(&mut self) {
        let Mount { tag, limits, .. } = &self.mount;
        println!("   (the file system with tag {} of {} is closed)", tag, limits.laboratory);
    }
}

/// What a session keeps: a full number, and the stamp that its index had in the hold of the lock that led to it.
#[derive(Clone, Copy)]
struct Kept {
    number: VfsInode,
    stamp: u64,
}

/// The answer to a kept number that is not good. It is not ENOENT, so that no app takes it for "no such file".
const ESTALE: i32 = 116;

/// What the gateway judges kept numbers by, a stamp for each index: docs/GUARANTEES.md, "How a gateway tells".
struct Stamps([u64; 256]);

impl Stamps {
    /// All drawn, that of the tree, 0, among them: no number from before is good.
    fn new() -> Stamps {
        let mut stamps = Stamps([0; 256]);
        (0..=255).for_each(|fs_idx| stamps.draw(fs_idx));
        stamps
    }

    /// A new stamp for an index that a call has given away.
    fn draw(&mut self, fs_idx: VfsIndex) {
        self.put(fs_idx, random());
    }

    fn put(&mut self, fs_idx: VfsIndex, stamp: u64) {
        self.0[usize::from(fs_idx)] = stamp;
    }

    fn of(&self, fs_idx: VfsIndex) -> u64 {
        self.0[usize::from(fs_idx)]
    }

    /// Where a kept number leads, if it is good; else none. 0 and 1 never are: 1 leads to whatever is mounted on `/`.
    fn judge(&self, vfs: &Vfs, kept: Kept) -> Option<Route> {
        if kept.number <= VfsInode(1) || self.of(kept.number.fs_idx()) != kept.stamp {
            return None;
        }
        vfs.route(kept.number).ok()
    }
}

/// 64 bits at random from the system. Without them the gateway panics while it holds the lock, and the lock then lets no
/// request in any more.
fn random() -> u64 {
    let mut bytes = [0; 8];
    let read = File::open("/dev/urandom").and_then(|mut file| file.read_exact(&mut bytes));
    read.expect("a stamp is drawn from /dev/urandom");
    u64::from_ne_bytes(bytes)
}

/// The tables, and all that the host keeps beside them. It changes under one lock.
struct Tables {
    vfs: Vfs,
    removes: bool,
    stamps: Stamps,
    next_tag: u32,
    mounts: BTreeMap<Tag, Arc<Open>>,
}

/// What one gateway hands to the next: the state, and all that is not part of it; with each mount its stamp.
struct Handover {
    state: Vec<u8>,
    removes: bool,
    next_tag: u32,
    mounts: Vec<(Mount, u64)>,
}

struct Gateway(RwLock<Tables>);

impl Gateway {
    /// A gateway without mounts. `removes`: whether a done unmount also removes its node. With it, what is mounted below
    /// a path is to be unmounted before the path itself.
    fn new(removes: bool) -> Result<Gateway, VfsError> {
        Ok(Gateway(RwLock::new(Tables::new(None, removes, 1)?)))
    }

    /// Mounts a file system at a path. One that it replaces is out of use and closed before this returns.
    fn mount(&self, limits: Limits, path: &str) -> Result<VfsIndex, VfsError> {
        let (fs_idx, old) = self.0.write().unwrap().mount(limits, path)?;
        wait_for_end(old);
        Ok(fs_idx)
    }

    /// Unmounts a path. Its file system is out of use and closed before this returns.
    fn umount(&self, path: &str) -> Result<(), VfsError> {
        let old = self.0.write().unwrap().umount(path)?;
        wait_for_end(old);
        Ok(())
    }

    /// Opens the limits at a path: what a session keeps of them. One hold of the lock covers the way to the file system
    /// and the reading of the stamp. The file system is asked for its number behind the unlock.
    fn open(&self, path: &str) -> Result<Kept, VfsError> {
        let t = self.0.read().unwrap();
        let found = t.vfs.get_rootfs(path)?.ok_or(VfsError::NoEnt)?;
        let stamp = t.stamps.of(found.fs_idx);
        let open = t.mounts.get(&found.tag).cloned().ok_or(VfsError::NoEnt)?;
        drop(t);
        let number = convert_inode(found.fs_idx, open.mount.limits.find("limits")?)?;
        Ok(Kept { number, stamp })
    }

    /// The mount that a kept number was handed out for, and the file's own number in it; else ESTALE. One hold of the
    /// lock covers the judging, the route and the look for the mount. No node of the tree is handed out here.
    fn find(&self, kept: Kept) -> io::Result<(Arc<Open>, BackendNumber)> {
        let t = self.0.read().unwrap();
        let good = match t.stamps.judge(&t.vfs, kept) {
            Some(Route::Backend { tag, number, .. }) => t.mounts.get(&tag).map(|o| (o, number)),
            Some(Route::Tree(_)) | None => None,
        };
        let (open, number) = good.ok_or_else(|| io::Error::from_raw_os_error(ESTALE))?;
        Ok((Arc::clone(open), number))
    }

    /// Reads by a kept number. The file system is used behind the unlock.
    fn read(&self, kept: Kept) -> io::Result<String> {
        let (open, number) = self.find(kept)?;
        Ok(open.mount.limits.read(number)?)
    }

    /// Ends this gateway, so that nothing changes behind the saved state, and closes its file systems.
    fn hand_over(self) -> Result<Handover, VfsError> {
        let t = self.0.into_inner().unwrap();
        let state = t.vfs.save_to_bytes()?;
        let with_stamp = |open: &Arc<Open>| (open.mount.clone(), t.stamps.of(open.mount.fs_idx));
        let mounts = t.mounts.values().map(with_stamp).collect();
        Ok(Handover { state, removes: t.removes, next_tag: t.next_tag, mounts })
    }

    /// The next gateway, with every mount of the list before it serves anyone: as they were, or else all anew.
    fn take_over(from: Handover) -> Result<Gateway, VfsError> {
        let tables = Tables::put_back(&from).map_or_else(|| Tables::mount_anew(&from), Ok)?;
        Ok(Gateway(RwLock::new(tables)))
    }
}

impl Tables {
    /// Tables without mounts, with a saved state or without one. All stamps are new.
    fn new(state: Option<&[u8]>, removes: bool, next_tag: u32) -> Result<Tables, VfsError> {
        let mut vfs = Vfs::new(64, 0, &VfsOptions::new())?;
        if let Some(state) = state {
            vfs.restore_from_bytes(state)?;
        }
        if removes {
            vfs.set_remove_pseudo_root()?;
        }
        Ok(Tables { vfs, removes, stamps: Stamps::new(), next_tag, mounts: BTreeMap::new() })
    }

    /// Each mount as it was, with tag, index and stamp. It keeps the stamp, since it is the same file system, and gives
    /// the same number to the same file. None where the state or a mount is refused, or where two mounts have one tag,
    /// one path or one index.
    fn put_back(from: &Handover) -> Option<Tables> {
        let mut t = Tables::new(Some(&from.state), from.removes, from.next_tag).ok()?;
        for (m, stamp) in &from.mounts {
            let done = t.vfs.restore_mount(Backend::new(m.tag), m.fs_idx, &m.path).ok()?;
            let twice = t.hold(m.clone());
            if twice.is_some() || done.replaced.is_some() || done.displaced.is_some() {
                return None;
            }
            t.stamps.put(m.fs_idx, *stamp);
        }
        Some(t)
    }

    /// Each mount made anew in a new instance. All stamps are new, so every old number is refused.
    fn mount_anew(from: &Handover) -> Result<Tables, VfsError> {
        let mut t = Tables::new(None, from.removes, from.next_tag)?;
        for (m, _) in &from.mounts {
            t.mount(m.limits, &m.path)?;
        }
        Ok(t)
    }

    /// Mounts, and draws the stamp of the index in the same hold of the lock. Answers the index, and what is replaced.
    fn mount(&mut self, limits: Limits, path: &str) -> Result<(VfsIndex, LetGo), VfsError> {
        let tag = self.fresh_tag();
        let done = self.vfs.mount(Backend::new(tag), path)?;
        self.stamps.draw(done.fs_idx);
        self.hold(Mount { tag, path: path.to_string(), fs_idx: done.fs_idx, limits });
        Ok((done.fs_idx, done.replaced.and_then(|tag| self.mounts.remove(&tag))))
    }

    fn umount(&mut self, path: &str) -> Result<LetGo, VfsError> {
        let done = self.vfs.umount(path)?;
        Ok(done.released.and_then(|tag| self.mounts.remove(&tag)))
    }

    fn hold(&mut self, mount: Mount) -> LetGo {
        self.mounts.insert(mount.tag, Arc::new(Open { mount, end: Mutex::new(None) }))
    }

    /// A tag that no mount has. No request keeps a tag over an unlock, so that is enough.
    fn fresh_tag(&mut self) -> Tag {
        loop {
            let tag = Tag(self.next_tag);
            self.next_tag = self.next_tag.wrapping_add(1);
            if !self.mounts.contains_key(&tag) {
                return tag;
            }
        }
    }
}

const BERN: &str = "/labs/bern";
const OSLO: &str = "/labs/oslo";
const PORTO: &str = "/labs/porto";
const TURKU: &str = "/labs/turku";
const LIMA: &str = "/labs/lima";

const INTRODUCTION: &str = "A gateway for the tolerance limits of laboratory balances.

Each laboratory has its limits in a file system of its own, in a file with number 2.
Each mount gets an index, 1 to 255. A session keeps full numbers, and a full number is
index x 2^56 + the file's own number, so it says which index it belongs to. With each
number it keeps the stamp of that index: 64 bits at random, drawn anew by the gateway
whenever a mount gets the index.";

fn tell(what: &str, answer: io::Result<String>) {
    match answer {
        Ok(text) => println!("   {} -> {}", what, text),
        Err(e) if e.raw_os_error() == Some(ESTALE) => {
            println!("   {} -> refused, open it again (ESTALE, errno 116)", what)
        }
        Err(e) => println!("   {} -> refused: {}", what, e),
    }
}

fn show(number: VfsInode) -> String {
    format!("{} = {} x 2^56 + {}", number, number.fs_idx(), number.ino())
}

fn mount(
    gateway: &Gateway,
    laboratory: &'static str,
    micrograms: u32,
    path: &str,
) -> io::Result<()> {
    let fs_idx = gateway.mount(Limits { laboratory, micrograms }, path)?;
    println!("   {} has index {}", path, fs_idx);
    Ok(())
}

/// What a session keeps.
struct Session {
    bern: Kept,
    oslo: Kept,
    porto: Kept,
}

fn open_all(gateway: &Gateway) -> io::Result<Session> {
    println!("\n1. The limits of three laboratories are mounted.");
    mount(gateway, "Bern", 300, BERN)?;
    mount(gateway, "Oslo", 500, OSLO)?;
    mount(gateway, "Porto", 250, PORTO)?;

    println!("\n2. A session opens all three and keeps the numbers.");
    let (bern, oslo, porto) = (gateway.open(BERN)?, gateway.open(OSLO)?, gateway.open(PORTO)?);
    for kept in [bern, oslo, porto] {
        tell(&show(kept.number), gateway.read(kept));
    }
    Ok(Session { bern, oslo, porto })
}

fn tighten(gateway: &Gateway, session: &mut Session) -> io::Result<()> {
    println!("\n3. Bern tightens its limits: the new file system is mounted over the old one.");
    mount(gateway, "Bern", 200, BERN)?;
    tell("the number kept for Bern", gateway.read(session.bern));
    println!("   So the session cannot judge by the old limits. It opens them again:");
    session.bern = gateway.open(BERN)?;
    tell(&show(session.bern.number), gateway.read(session.bern));
    Ok(())
}

fn leave_and_come(gateway: &Gateway, session: &Session) -> io::Result<()> {
    println!("\n4. Oslo is unmounted while a request uses it. The unmount waits for that request.");
    let (open, number) = gateway.find(session.oslo)?;
    thread::scope(|s| {
        let unmount = s.spawn(|| gateway.umount(OSLO));
        while !unmount.is_finished() && gateway.read(session.oslo).is_ok() {
            thread::yield_now();
        }
        tell("the number kept for Oslo", gateway.read(session.oslo));
        tell("the request under way", open.mount.limits.read(number).map_err(io::Error::from));
        drop(open);
        unmount.join().unwrap()
    })?;
    let again = gateway.umount(OSLO).map(|()| "done".to_string());
    tell("Oslo unmounted once more", again.map_err(io::Error::from));

    println!("\n5. Another laboratory comes. It gets the next index and not the freed 1 or 2,");
    println!("   so a number that was kept does not come alive inside its limits.");
    mount(gateway, "Turku", 900, TURKU)?;
    tell("the number kept for Oslo", gateway.read(session.oslo));
    Ok(())
}

fn restart(gateway: Gateway, session: &Session) -> io::Result<Gateway> {
    println!("\n6. The state is saved, and a new gateway takes over.");
    let handover = gateway.hand_over()?;
    println!("   saved: {} bytes, and beside them", handover.state.len());
    for (m, _) in &handover.mounts {
        println!("   a mount: {} at index {}, tag {}, with its stamp", m.path, m.fs_idx, m.tag);
    }
    println!("   the next tag {}, and whether remove_pseudo_root is set", handover.next_tag);
    let gateway = Gateway::take_over(handover)?;
    tell("the number kept for Porto", gateway.read(session.porto));
    tell("the number kept for Bern ", gateway.read(session.bern));
    tell("the number kept for Oslo ", gateway.read(session.oslo));
    Ok(gateway)
}

fn come_back(gateway: &Gateway, session: &Session) -> io::Result<()> {
    println!("\n7. Oslo comes back. The index search goes on where the old gateway left it.");
    mount(gateway, "Oslo", 450, OSLO)?;
    tell("the number kept for Oslo ", gateway.read(session.oslo));
    let oslo = gateway.open(OSLO)?;
    tell(&show(oslo.number), gateway.read(oslo));
    Ok(())
}

/// Says where a number leads by its index alone.
fn tell_route(whose: &str, gateway: &Gateway, kept: Kept) -> io::Result<()> {
    let t = gateway.0.read().unwrap();
    if let Route::Backend { tag, .. } = t.vfs.route(kept.number)? {
        let path = &t.mounts[&tag].mount.path;
        println!("   By its index alone the old number for {} leads to {}. But that", whose, path);
        println!("   mount drew a new stamp, and the session has the old one.");
    }
    Ok(())
}

fn go_round(gateway: &Gateway, session: &Session) -> io::Result<()> {
    println!("\n8. A script asks 250 times for a mount on a path without a leading slash. Each is");
    println!("   refused, but its search has found an index, so the next search begins behind it.");
    let lima = Limits { laboratory: "Lima", micrograms: 700 };
    for _ in 0..250 {
        assert_eq!(gateway.mount(lima, "labs/lima"), Err(VfsError::Inval));
    }
    println!("   Then the path is right, and it gets the index that was Oslo's at first.");
    mount(gateway, "Lima", 700, LIMA)?;
    tell_route("Oslo", gateway, session.oslo)?;
    tell("the number kept for Oslo ", gateway.read(session.oslo));
    tell("the number kept for Porto", gateway.read(session.porto));
    Ok(())
}

fn begin_anew(gateway: Gateway, session: &Session) -> io::Result<Gateway> {
    println!("\n9. The next handover loses a byte of the state. The restore is refused, so all is");
    println!("   mounted anew, and every old number is refused.");
    let mut handover = gateway.hand_over()?;
    handover.state.pop();
    let gateway = Gateway::take_over(handover)?;
    tell_route("Porto", &gateway, session.porto)?;
    tell("the number kept for Porto", gateway.read(session.porto));
    let porto = gateway.open(PORTO)?;
    tell(&show(porto.number), gateway.read(porto));
    Ok(gateway)
}

fn main() -> io::Result<()> {
    println!("{}", INTRODUCTION);
    let gateway = Gateway::new(false)?;
    let mut session = open_all(&gateway)?;
    tighten(&gateway, &mut session)?;
    leave_and_come(&gateway, &session)?;
    let gateway = restart(gateway, &session)?;
    come_back(&gateway, &session)?;
    go_round(&gateway, &session)?;
    let gateway = begin_anew(gateway, &session)?;

    println!("\nThe gateway ends.");
    drop(gateway);
    Ok(())
}
