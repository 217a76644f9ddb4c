//! Farm sheets, good ones and spoilt ones.

use super::dice::Dice;

/// A sheet that keeps the rules: small quotas, so that lines form.
pub fn good_sheet(dice: &mut Dice) -> Vec<u8> {
    let quotas = quotas(dice);
    let farms = quotas.len();
    let testers = addresses(dice, 0x0E00, farms, (farms + 1) * 4);
    // some targets have a tester's address (decision A3)
    let targets_from = if dice.percent(20) { 0x0E00 } else { 0x1000 };
    let targets = addresses(dice, targets_from, farms, farms * 4);
    let (f, t, g) = (farms as u16, testers.len() as u16, targets.len() as u16);
    let mut sheet = Vec::new();
    for number in [f, t, g, 12, 12 + 33 * f, 12 + 33 * f + 4 * t] {
        sheet.extend(number.to_be_bytes());
    }
    let alike = dice.percent(15).then(|| dice.bytes(29));
    for quota in quotas {
        let entity = if dice.percent(20) { 0x1000 } else { dice.between(1, 0xFFFF) as u16 };
        sheet.extend(entity.to_be_bytes());
        sheet.extend([quota, dice.below(3) as u8]);
        sheet.extend(alike.clone().unwrap_or_else(|| dice.bytes(29)));
    }
    for (address, farm) in testers {
        sheet.extend(address.to_be_bytes());
        sheet.extend([farm, 0]);
    }
    for (address, farm) in targets {
        sheet.extend(address.to_be_bytes());
        sheet.extend([farm, u8::from(dice.percent(70))]);
    }
    sheet
}

fn quotas(dice: &mut Dice) -> Vec<u8> {
    let farms = dice.between(1, 4);
    let mut rows_left = 16;
    let mut quotas = Vec::new();
    for number in 0..farms {
        // each farm behind this one needs two rows at least
        let most = (rows_left - 2 * (farms - number - 1) - 1).min(8);
        let wish = if dice.percent(15) { 8 } else { dice.pick(&[1, 1, 2, 2, 2, 3, 3, 4]) };
        let quota = wish.min(most);
        rows_left -= quota + 1;
        quotas.push(quota as u8);
    }
    quotas
}

/// Ascending addresses, each with a farm; seldom there is none, seldom the last is FFFF.
fn addresses(dice: &mut Dice, from: usize, farms: usize, most: usize) -> Vec<(u16, u8)> {
    let count = if dice.percent(2) { 0 } else { dice.between(most / 2, most) };
    let mut address = from - 1;
    let mut list = Vec::new();
    for number in 0..count {
        address += dice.pick(&[1, 1, 1, 2, 0x100]);
        // the first ones one for each farm, so that every farm has somebody
        let farm = if number < farms { number } else { dice.below(farms) };
        list.push((address as u16, farm as u8));
    }
    if let Some(last) = list.last_mut().filter(|_| dice.percent(5)) {
        last.0 = 0xFFFF;
    }
    list
}

/// A sheet that was good, with something changed. It may still be good.
pub fn spoilt(dice: &mut Dice, good: &[u8]) -> Vec<u8> {
    let mut sheet = good.to_vec();
    let place = dice.below(sheet.len());
    match dice.below(8) {
        0 => sheet.truncate(place),
        1 => sheet.push(dice.byte()),
        2 => sheet = Vec::new(),
        // a count or an offset
        3 => sheet[dice.below(6) * 2 + 1] ^= dice.pick(&[1, 2, 4, 0x40]),
        // a farm's quota or mode
        4 => sheet[14 + dice.below(2)] = dice.pick(&[0, 1, 2, 3, 8, 9]),
        // an entity address of 0
        5 => sheet[12..14].fill(0),
        // somewhere in the lists, or in an identifier
        6 => sheet[place] = dice.pick(&[0, 1, 2, 3, 4, 0xFF]),
        _ => sheet[place] = dice.byte(),
    }
    sheet
}
