//! A stored job text rewritten.

use super::job;

/// Writes C where an area line of a text that reads has U for its soil; a text that does not read is left as it is.
pub fn rewrite(text: &mut [u8]) {
    if job::read(text).is_err() {
        return;
    }
    for line in text.split_mut(|&byte| byte == b'\n').filter(|line| line.starts_with(b"area=")) {
        // USE,COVER,SOIL,AREA
        if let Some([soil @ b'U']) = line.split_mut(|&byte| byte == b',').nth(2) {
            *soil = b'C';
        }
    }
}

#[cfg(test)]
mod tests {
    use super::*;

    const HEAD: &str = "practice=basin\nnutrient=P\nmode=step\nrate=39\ntask=size\namount=70000\n";

    fn rewritten(text: &str) -> String {
        let mut bytes = text.as_bytes().to_vec();
        rewrite(&mut bytes);
        String::from_utf8(bytes).unwrap()
    }

    #[test]
    fn each_u_becomes_c() {
        let soils = |unknown: &str| {
            let soils = ["A", "B", "C", "CD", "D", unknown, unknown];
            let areas: String = soils.iter().map(|soil| format!("area=com,per,{},7\n", soil)).collect();
            format!("{}area=com,imp,-,257\n{}", HEAD, areas)
        };
        assert_eq!(rewritten(&soils("U")), soils("C"));
        assert_eq!(rewritten(&soils("C")), soils("C"));
        // A load, and a job that is refused 8.
        let load = "practice=basin\nnutrient=P\nmode=step\nrate=0\ntask=load\namount=0\narea=for,per,U,7\n";
        assert_eq!(rewritten(load), load.replace('U', "C"));
        assert_eq!(rewritten(&format!("{}area=ag,per,U,7\n", HEAD)), format!("{}area=ag,per,C,7\n", HEAD));
    }

    #[test]
    fn a_text_that_does_not_read_is_left() {
        let good = "area=com,per,U,7\n";
        let too_long = 4097 - HEAD.len() - good.len();
        for areas in [
            // Refused 1: another soil, no end, another end, something behind it, over 4,096 bytes.
            "area=com,per,UD,7\n".to_string(),
            "area=com,per,u,7\n".to_string(),
            "area=com,per,U,7".to_string(),
            "area=com,per,U,7\r\n".to_string(),
            good.to_string() + "U",
            good.to_string() + &"U".repeat(too_long),
            // Refused 2, 3 and 14, behind a good line.
            good.to_string() + "area=com,imp,U,7\n",
            good.to_string() + "area=com,per,U,0\n",
            good.to_string() + "area=com,per,U,999994\n",
            good.repeat(33),
        ] {
            let text = HEAD.to_string() + &areas;
            assert_eq!(rewritten(&text), text);
        }
        for text in ["", "U", "area=com,per,U,7\n"] {
            assert_eq!(rewritten(text), text);
        }
    }
}
