// imgcodecs.cc: the same pictures by OpenCV, in memory. Its black, which is 1 in a PBM, is 0 in a matrix, and its white 255.
#include <opencv2/imgcodecs.hpp>

#include "speed.h"

int opencv_write(struct sheet *s, const struct figure *) {
    static const std::vector<int> raw{cv::IMWRITE_PXM_BINARY, 1};
    static std::vector<uchar> picture; // kept, so that its room is found once
    cv::imencode(".pbm", cv::Mat((int)s->side, (int)s->side, CV_8U, s->fresh, s->pitch), picture, raw);
    s->picture = picture.data();
    s->pictured = picture.size();
    return 1;
}

// onto a matrix of the sheet's own cells, which is faster than making one
int opencv_read(struct sheet *s, const struct figure *) {
    cv::Mat sheet((int)s->side, (int)s->side, CV_8U, s->bytes, s->pitch);
    const cv::Mat picture(1, (int)s->pictured, CV_8U, const_cast<uint8_t *>(s->picture));
    cv::imdecode(picture, cv::IMREAD_GRAYSCALE, &sheet);
    return 1;
}
