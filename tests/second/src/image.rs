//! The frozen image: written from a list, and read from any bytes. Edition 1 is
//! document 01's, edition 2 that of document 02, note 8.

use crate::bits::{field, number, packed, push_field, push_number};
use crate::plain::reached;
use crate::refusal::{refuse_if, Answer, Refusal};
use crate::reserve::{digits, reserve};
use crate::tree::{decode, encode, walk, Walked};
use std::ops::RangeInclusive;

const MOST_HOURS: usize = 65_536;
pub const MOST_COINS: u64 = (1 << 40) - 1;
pub const COUNT_LIMIT: u64 = 4_294_967_295;

/// What an edition's header has: the number in byte 0, how many bytes S takes,
/// how many zero bytes stand behind L, and which totals it is for.
struct Edition {
    number: u8,
    total_bytes: usize,
    zeros: usize,
    totals: RangeInclusive<u64>,
}

static EDITIONS: [Edition; 2] = [
    Edition {
        number: 1,
        total_bytes: 4,
        zeros: 0,
        totals: 0..=4_294_967_295,
    },
    Edition {
        number: 2,
        total_bytes: 8,
        zeros: 4,
        totals: 1 << 32..=MOST_COINS,
    },
];

impl Edition {
    /// The one that the writer uses.
    fn of_total(total: u64) -> &'static Edition {
        let mut all = EDITIONS.iter();
        all.find(|edition| edition.totals.contains(&total))
            .expect("a total that an image can have")
    }

    fn of_bytes(image: &[u8]) -> Option<&'static Edition> {
        let number = image.first()?;
        EDITIONS.iter().find(|edition| edition.number == *number)
    }

    /// Where L stands, behind S.
    fn code_bits_at(&self) -> usize {
        8 + self.total_bytes
    }

    fn header(&self) -> usize {
        self.code_bits_at() + 4 + self.zeros
    }
}

pub fn page_size_allowed(e: u32) -> bool {
    (2..=8).contains(&e)
}

/// The image of a list that is known to have one.
pub fn image_of(counts: &[u64], e: u32) -> Vec<u8> {
    let total: u64 = counts.iter().sum();
    let mut starts = Vec::new();
    let mut code = Vec::new();
    let mut root = 0;
    for chunk in counts.chunks(1 << e) {
        starts.push(code.len() as u64);
        let mut page = chunk.to_vec();
        page.resize(1 << e, 0);
        root += page.iter().sum::<u64>();
        push_field(&mut code, digits(total), root);
        encode(&page, &mut code);
    }
    let edition = Edition::of_total(total);
    let mut image = vec![edition.number, e as u8, 0, 0];
    push_number(&mut image, 4, counts.len() as u64);
    push_number(&mut image, edition.total_bytes, total);
    push_number(&mut image, 4, code.len() as u64);
    push_number(&mut image, edition.zeros, 0);
    for start in starts {
        push_number(&mut image, 4, start);
    }
    image.extend(packed(&code));
    image
}

/// The image of a list, or why it has none.
pub fn image(counts: &[u64], e: u32) -> Answer<Vec<u8>> {
    refuse_if(!page_size_allowed(e), Refusal::PageSize)?;
    refuse_if(counts.len() > MOST_HOURS, Refusal::List)?;
    refuse_if(counts.iter().sum::<u64>() > MOST_COINS, Refusal::Total)?;
    Ok(image_of(counts, e))
}

pub fn length(counts: &[u64], e: u32) -> Answer<u64> {
    Ok(image(counts, e)?.len() as u64)
}

/// Puts an image at the front of a buffer; the bytes beyond stay.
pub fn place(image: &[u8], out: &mut [u8]) -> Answer<u64> {
    refuse_if(out.len() < image.len(), Refusal::Buffer)?;
    out[..image.len()].copy_from_slice(image);
    Ok(image.len() as u64)
}

pub fn write(counts: &[u64], e: u32, out: &mut [u8]) -> Answer<u64> {
    place(&image(counts, e)?, out)
}

/// What an image says of itself, once refusal 5 is past.
struct Header {
    edition: &'static Edition,
    e: u32,
    hours: usize,
    total: u64,
    code_bits: usize,
}

impl Header {
    fn read(image: &[u8]) -> Answer<Header> {
        let edition = Edition::of_bytes(image).ok_or(Refusal::Header)?;
        refuse_if(image.len() < edition.header(), Refusal::Header)?;
        let (bits_at, end) = (edition.code_bits_at(), edition.header());
        let header = Header {
            edition,
            e: u32::from(image[1]),
            hours: number(&image[4..8]) as usize,
            total: number(&image[8..bits_at]),
            code_bits: number(&image[bits_at..bits_at + 4]) as usize,
        };
        let mut zeros = image[2..4].iter().chain(&image[bits_at + 4..end]);
        let right = page_size_allowed(header.e)
            && zeros.all(|&byte| byte == 0)
            && header.hours <= MOST_HOURS
            && edition.totals.contains(&header.total);
        refuse_if(!right || image.len() != header.length(), Refusal::Header)?;
        Ok(header)
    }

    fn pages(&self) -> usize {
        self.hours.div_ceil(1 << self.e)
    }

    fn code_at(&self) -> usize {
        self.edition.header() + 4 * self.pages()
    }

    fn length(&self) -> usize {
        self.code_at() + self.code_bits.div_ceil(8)
    }

    fn code<'a>(&self, image: &'a [u8]) -> &'a [u8] {
        &image[self.code_at()..]
    }

    /// Where the table says that a page starts.
    fn start(&self, image: &[u8], page: usize) -> usize {
        number(&image[self.edition.header() + 4 * page..][..4]) as usize
    }

    /// A page's cumulative sum; `None` if it passes L or is above S.
    fn root(&self, image: &[u8], page: usize) -> Option<u64> {
        let start = self.start(image, page);
        let width = digits(self.total);
        if start + width > self.code_bits {
            return None;
        }
        let root = field(self.code(image), start, width);
        (root <= self.total).then_some(root)
    }

    /// A page's place and sum; `None` for damage in either root or if the
    /// tree passes L.
    fn page(&self, image: &[u8], page: usize) -> Option<Page> {
        let root = self.root(image, page)?;
        let before = match page {
            0 => 0,
            _ => self.root(image, page - 1)?,
        };
        let sum = root.checked_sub(before)?;
        let at = self.start(image, page) + digits(self.total);
        let fits = at + reserve(self.e, sum) <= self.code_bits;
        fits.then_some(Page { at, before, sum })
    }

    /// The counts of every page, the filling of the last one left off.
    fn counts(&self, image: &[u8]) -> Option<Vec<u64>> {
        let mut counts = Vec::new();
        for p in 0..self.pages() {
            let page = self.page(image, p)?;
            if !decode(self.code(image), page.at, self.e, page.sum, &mut counts) {
                return None;
            }
        }
        counts.truncate(self.hours);
        Some(counts)
    }

    /// The count of an hour, and the sum of all counts before it; a walk that
    /// ends at a count above its limit is damage, one that passes it is not.
    fn look(&self, image: &[u8], hour: usize) -> Option<Walked> {
        let size = 1 << self.e;
        let page = self.page(image, hour / size)?;
        let found = walk(self.code(image), page.at, self.e, page.sum, hour % size)?;
        (found.count <= COUNT_LIMIT).then_some(Walked {
            before: page.before + found.before,
            count: found.count,
        })
    }
}

/// A page of an image: the first bit of its tree, the root before, its sum.
struct Page {
    at: usize,
    before: u64,
    sum: u64,
}

/// The list that an image holds, if it is exactly what the writer makes of it.
pub fn list(image: &[u8]) -> Answer<Vec<u64>> {
    let header = Header::read(image)?;
    let counts = header.counts(image).ok_or(Refusal::Body)?;
    let in_a_list = |&count: &u64| count <= COUNT_LIMIT;
    refuse_if(!counts.iter().all(in_a_list), Refusal::Body)?;
    refuse_if(image_of(&counts, header.e) != image, Refusal::Body)?;
    Ok(counts)
}

/// The word that check gives for an image that `list` was asked about.
pub fn check(list: &Answer<Vec<u64>>) -> Answer<u64> {
    let counts = list.as_ref().map_err(|&refusal| refusal)?;
    Ok(counts.iter().sum::<u64>() + ((counts.len() as u64) << 40))
}

pub fn count(image: &[u8], hour: u64) -> Answer<u64> {
    let header = Header::read(image)?;
    refuse_if(hour >= header.hours as u64, Refusal::Hour)?;
    let found = header.look(image, hour as usize).ok_or(Refusal::Body)?;
    Ok(found.count)
}

pub fn reading(image: &[u8], hour: u64) -> Answer<u64> {
    let header = Header::read(image)?;
    refuse_if(hour > header.hours as u64, Refusal::Hour)?;
    if hour == 0 {
        return Ok(0);
    }
    let found = header.look(image, hour as usize - 1).ok_or(Refusal::Body)?;
    Ok(found.before + found.count)
}

/// What reach may answer.
#[derive(Debug)]
pub enum Reached {
    Exactly(Answer<u64>),
    /// The image is not accepted: refusal 6 or any index from 0 to N.
    BodyOrIndexTo(u64),
}

pub fn reach(image: &[u8], list: &Answer<Vec<u64>>, figure: u64) -> Reached {
    let header = match Header::read(image) {
        Ok(header) => header,
        Err(refusal) => return Reached::Exactly(Err(refusal)),
    };
    if figure > header.total {
        return Reached::Exactly(Err(Refusal::Figure));
    }
    match list {
        Ok(counts) => Reached::Exactly(Ok(reached(counts, figure))),
        Err(_) => Reached::BodyOrIndexTo(header.hours as u64),
    }
}
