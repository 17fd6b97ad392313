//! An image and its open nodes, and the calls that ask nobody.
use alloc::boxed::Box;
use alloc::vec;
use alloc::vec::Vec;
use core::fmt;

use crate::edge::Pair;
use crate::{Counts, Editor, FailedRule, FileName, Owner, Reason, Time, Unfit, BLOCK, BLOCKS_LEAST, BLOCKS_MOST, TABLE};

/// An image, the table of its open nodes, and the calls on the whole of it.
///
/// The calls that take or make a handle are an [`Editor`]'s, who says who asks: [`editor`](Image::editor) and [`reader`](Image::reader) give one.
///
/// An `Image` owns its bytes and its table's, so that these calls alone write them. Calls that change nothing take `&self` and may run side by side; an
/// `Image` can be sent to another thread, and teams share one behind a lock. Nothing is kept outside it: a clone is an image of its own.
///
/// # Tested once, or in each call
///
/// An image that was just [formatted](Image::format) passes the checker, and so does one that was [checked](Image::checked) or [mended](Image::mend). Only the calls here write it,
/// and these leave an image that passes again: that is proved (`FormatFresh`, `CheckTrusts`, `MendTrusts` and `OwnKeeps`, crate `linked`). So its calls leave the test of the whole image out,
/// which is nearly all of their time, and give none of the reasons that it could find ([`is_trusted`](Image::is_trusted)). With any other image each call
/// makes that test first. An image that is [reopened](Image::reopen) becomes such a one; [`trust`](Image::trust) asks the checker again.
///
/// # Reasons
///
/// A call is done, or it is refused with a [`Reason`] and has changed nothing. Each call says which reasons it gives, in the order in which it gives
/// them where more than one holds. Before those come [`BadArena`](Reason::BadArena), [`Damaged`](Reason::Damaged) and [`BadTable`](Reason::BadTable):
/// the bytes that the image was made from are at fault. [`NoDeviceSpace`](Reason::NoDeviceSpace) and [`Stuck`](Reason::Stuck) come at the step that
/// can't be done.
#[derive(Clone)]
pub struct Image {
    pub(crate) pair: Pair,
}

fn no_table() -> Box<[u8; TABLE]> {
    Box::new([0; TABLE])
}

// ---- the whole image

impl Image {
    /// Makes a fresh image of so many blocks, with an empty root folder. `file` is the name of the root's own file.
    ///
    /// Reasons: `BadArena` (not 16 to 4,096 blocks).
    pub fn format(blocks: usize, time: Time, file: FileName) -> Result<Image, Reason> {
        if !(BLOCKS_LEAST..=BLOCKS_MOST).contains(&blocks) {
            return Err(Reason::BadArena);
        }
        let mut pair = Pair::of(vec![0; blocks.saturating_mul(BLOCK)], no_table());
        pair.format(time, file)?;
        Ok(Image { pair })
    }

    /// Opens an image from its bytes, and asks the checker: it must pass. No handle is live.
    ///
    /// Where it is refused the bytes are gone: lend a slice to keep them.
    ///
    /// Reasons: as [`untrusted`](Image::untrusted); then the checker's lowest rule that fails.
    pub fn checked(bytes: impl Into<Vec<u8>>) -> Result<Image, Unfit> {
        let mut image = Image::untrusted(bytes)?;
        image.trust()?;
        Ok(image)
    }

    /// Opens an image from its bytes, and [mends](Image::mend) what a host that went down has left. No handle is live.
    ///
    /// An image that the checker passes is opened as it is: of that the mender changes no byte. What is mended is in memory: keep its
    /// [`bytes`](Image::bytes). Where it is refused the bytes are gone: lend a slice to keep them.
    ///
    /// Reasons: as [`untrusted`](Image::untrusted); then as [`mend`](Image::mend), but for `InUse`.
    ///
    /// ```
    /// use dzomrelig::{FileName, Image, NewKind, Owner, Time};
    ///
    /// # fn main() -> Result<(), dzomrelig::Reason> {
    /// let now = Time::new(1_700_000_000, 0);
    /// let mut image = Image::format(64, now, FileName([0; 16]))?;
    /// let mut anna = image.editor(Owner::One);
    /// let root = anna.root()?;
    /// let a = anna.create(root, "A", NewKind::File, 0o644, now, FileName([1; 16]))?;
    /// anna.write_at(a, 0, "M0 0 L5 9 L9 0")?;
    /// let b = anna.create(root, "B", NewKind::File, 0o644, now, FileName([2; 16]))?;
    /// anna.remove_file(root, "B")?; // it is still open
    ///
    /// // here the host goes down: nothing was closed or synced
    /// let bytes = image.into_bytes();
    /// assert!(Image::checked(&*bytes).is_err());
    /// let mut image = Image::recovered(bytes)?;
    /// assert_eq!(image.inventory()?, b"3 1 1 /A\n");
    /// let mut anna = image.editor(Owner::One);
    /// let root = anna.root()?;
    /// let a = anna.find(root, "A")?;
    /// assert_eq!(anna.read_to_vec(a)?, b"M0 0 L5 9 L9 0");
    /// # Ok(())
    /// # }
    /// ```
    pub fn recovered(bytes: impl Into<Vec<u8>>) -> Result<Image, Reason> {
        let mut image = Image::untrusted(bytes)?;
        image.mend()?;
        Ok(image)
    }

    /// Opens an image from its bytes, whatever the checker says of it. No handle is live.
    ///
    /// The calls are safe on every image: where what is stored does not fit together, they say [`Reason::Stuck`]. Where it is refused the bytes are
    /// gone: lend a slice to keep them.
    ///
    /// Reasons: `BadArena`, `Damaged`, `WrongFs`; `Stuck`.
    pub fn untrusted(bytes: impl Into<Vec<u8>>) -> Result<Image, Reason> {
        let mut pair = Pair::of(bytes.into(), no_table());
        pair.open()?;
        Ok(Image { pair })
    }

    /// An image and a table of any bytes, neither opened nor checked: for tools that look at damage, and for tests.
    pub fn from_parts(bytes: impl Into<Vec<u8>>, table: [u8; TABLE]) -> Image {
        Image { pair: Pair::of(bytes.into(), Box::new(table)) }
    }

    /// The image's bytes. A record that was changed may stand in the table only, as by [`set_metadata`](Editor::set_metadata), so [`sync`](Image::sync)
    /// before the bytes are kept.
    pub fn bytes(&self) -> &[u8] {
        self.pair.arena()
    }

    /// The bytes of the table of open nodes: for tools.
    pub fn table(&self) -> &[u8; TABLE] {
        self.pair.table()
    }

    /// The image's bytes; its handles are gone. As with [`bytes`](Image::bytes), [`sync`](Image::sync) first.
    ///
    /// A node that was removed and is still open stays used in the bytes, and the checker's rule 7 fails there: [`close`](Editor::close) it first, or have it
    /// [mended](Image::recovered) later.
    pub fn into_bytes(self) -> Vec<u8> {
        let (arena, _) = self.pair.into_parts();
        arena
    }

    /// How many blocks the image has.
    pub fn blocks(&self) -> usize {
        self.bytes().len() / BLOCK
    }

    /// Clears the image and makes it a fresh one; every handle is gone.
    ///
    /// Reasons: `BadArena`.
    pub fn reformat(&mut self, time: Time, file: FileName) -> Result<(), Reason> {
        self.pair.format(time, file)
    }

    /// Opens the image again, as a host does that went down: every handle is gone, and what stood in the table only is lost. [`mend`](Image::mend) then
    /// makes an image of it that passes.
    ///
    /// Reasons: `BadArena`, `Damaged`, `WrongFs`; `Stuck`.
    pub fn reopen(&mut self) -> Result<(), Reason> {
        self.pair.open()
    }

    /// Stores the record of each open node that stands changed in the table. A host calls it before it goes down.
    ///
    /// Reasons: `NoDeviceSpace`, `Stuck`.
    pub fn sync(&mut self) -> Result<(), Reason> {
        self.pair.sync()
    }

    /// Asks the checker: what it counts where image and table pass, or else the lowest rule that fails. It never refuses.
    pub fn check(&self) -> Result<Counts, FailedRule> {
        self.pair.check()
    }

    /// The foundry's inventory: a line for each name, in the order of the slots, a folder's contents right after its own line.
    ///
    /// A line has the node's number, its type and its links in decimal and the path from the root, split by single spaces and ended by a newline. In the
    /// path a slash stands before each name, and the bytes 0 to 32, 127 and the backslash are a backslash and two lowercase hex digits; all others are as
    /// they are stored. A node of several names has a line for each; the root has none, so a fresh image gives an empty text.
    ///
    /// A new name has no slash, but one from before may have one. It is not escaped, so two lines may read alike.
    ///
    /// What is listed is what is stored, whatever the table of open nodes says. Where a removed node is still open, or a size is not stored yet, the stored image
    /// does not pass the checker, and the answer is `WrongFs`: [`close`](Editor::close) and [`sync`](Image::sync) first.
    ///
    /// The call is made with a buffer of an eighth of the image, which is mostly enough, and again with one twice as long while it is refused for its
    /// length. Folders that lie deep, under long names, make a text of many times the image: [`inventory_into`](Image::inventory_into) takes the limit that it is given.
    ///
    /// Reasons: `BadArena`, `Damaged`, `WrongFs` (the checker fails the image with no node open).
    ///
    /// ```
    /// use dzomrelig::{FileName, Image, NewKind, Owner, Time};
    ///
    /// # fn main() -> Result<(), dzomrelig::Reason> {
    /// let now = Time::new(1_700_000_000, 0);
    /// let mut image = Image::format(64, now, FileName([0; 16]))?;
    /// assert_eq!(image.inventory()?, b"");
    /// let mut anna = image.editor(Owner::One);
    /// let root = anna.root()?;
    /// let sans = anna.create(root, "sans", NewKind::Folder, 0o755, now, FileName([1; 16]))?;
    /// let a = anna.create(sans, "A", NewKind::File, 0o644, now, FileName([2; 16]))?;
    /// anna.link(root, "A bold", a)?;
    /// assert_eq!(image.inventory()?, b"3 2 2 /sans\n4 1 2 /sans/A\n4 1 2 /A\\20bold\n");
    /// # Ok(())
    /// # }
    /// ```
    pub fn inventory(&self) -> Result<Vec<u8>, Reason> {
        let mut text = vec![0; self.bytes().len() / 8];
        loop {
            match self.inventory_into(&mut text) {
                Ok(length) => {
                    text.truncate(length);
                    return Ok(text);
                }
                // an image that comes as far as that has 8,192 bytes or more
                Err(Reason::OutFull) => text = vec![0; text.len().saturating_mul(2)],
                Err(reason) => return Err(reason),
            }
        }
    }

    /// Writes the [inventory](Image::inventory) at the output's start: how many bytes it has. The output's bytes after it stay, and a refusal keeps all.
    ///
    /// Reasons: `BadArena`, `Damaged`, `WrongFs` (the checker fails the image with no node open), `OutFull` (the text does not fit; one of the output's
    /// own length does).
    pub fn inventory_into(&self, out: &mut [u8]) -> Result<usize, Reason> {
        // no longer than the output
        self.pair.inventory(out).map(|length| length as usize)
    }

    /// Mends what a host that went down has left, where no handle is live. Then the checker passes, and the calls from now on leave the test of the image out.
    ///
    /// A node that no name leads to goes, with its file: it was removed while it was open. Link counts are set from the names, and the sizes of all but folders
    /// from the files. Every name leads to the node that it led to, and no byte of its file has changed; modes, owners and times that were not stored are lost. A second time nothing
    /// changes, nor does anything the first time where the image passes with no node open.
    ///
    /// After calls on an image that was formatted by this library it is always done, wherever between two of them the host went down (`RunRecovers`, crate `linked`).
    ///
    /// Reasons: `InUse` (a handle is live, whoever's), `WrongFs` (more is wrong than a host leaves: rules 3 to 5, or 6 but for sizes, fail with no node open; a
    /// name leads to the root, or two to one folder; a folder's `..` is not the folder that names it, or does not lead up to the root; or no name leads to a folder that is not empty),
    /// `NoDeviceSpace` (an image from elsewhere lacks more blocks for its records than are free).
    pub fn mend(&mut self) -> Result<(), Reason> {
        self.pair.mend()
    }

    /// Asks the checker; where image and table pass, the calls from now on leave the test of the image out.
    pub fn trust(&mut self) -> Result<Counts, FailedRule> {
        self.pair.trust()
    }

    /// Whether the calls leave the test of the image out.
    pub fn is_trusted(&self) -> bool {
        self.pair.is_trusted()
    }

    /// The calls of one of the four who share the image.
    pub fn editor(&mut self, owner: Owner) -> Editor<&mut Image> {
        Editor::new(self, owner)
    }

    /// Those of them that change nothing; readers may be side by side.
    pub fn reader(&self, owner: Owner) -> Editor<&Image> {
        Editor::new(self, owner)
    }
}

impl fmt::Debug for Image {
    fn fmt(&self, f: &mut fmt::Formatter<'_>) -> fmt::Result {
        f.debug_struct("Image").field("blocks", &self.blocks()).finish_non_exhaustive()
    }
}
