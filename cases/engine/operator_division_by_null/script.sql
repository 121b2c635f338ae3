SET SCALE 2 ROUNDING HALF_UP;
INPUT "N" ("id" INTEGER, "i" INTEGER, "j" INTEGER, "n" NUMBER, "m" NUMBER) KEY ("id");
CREATE TABLE "U" AS
  SELECT 1 / "n"."j" AS "a", MOD(1, "n"."j") AS "b"
  FROM "N" AS "n"
  WHERE "n"."id" = 4;
EXPORT "U";
